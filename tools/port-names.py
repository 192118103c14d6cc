#!/usr/bin/env python3
"""Brings the repository's own definitions and lemmas to today's spelling: words in snake case, types and modules in camel case.

usage: python3 tools/port-names.py            at the top of the repository, once, behind port.py: the .antt, .rt and .edit files below crates/
       python3 tools/port-names.py FILE..     the names between back-quotes in pages, and every name in other files, by tools/ported-names.tsv

A lemma whose new name a definition has already gets '_lem' behind it. tools/ported-names.tsv lists each name as it was before the port beside the new one.
"""

import glob
import os
import re
import sys

HERE = os.path.dirname(os.path.realpath(__file__))
TABLE = os.path.join(HERE, "ported-names.tsv")
DECLARED = re.compile(r"^(\s*)((?:pub |abbrev |unfoldable |mutual )*)([^\s(){}.;,@\"«»:]+)((?: \{[^{}\n]*\})*) :(?:\s|$)")
# What the rule alone would spell badly: definitions that would get '_lem', and constructors that would meet a definition. Each row: the name that the rule gives, the
# one that stands, and the files that it is for (all, where none are named).
AMENDED = [
    ("no_sign_lem", "no_sign", ""),
    ("room_of_lem", "room_of", ""),
    ("ways_of_lem", "ways_of", ""),
    ("most_bytes", "most_bytes_lem", ""),
    ("most_bytes_lem", "most_bytes", ""),
    ("no_line_lem", "no_line", ""),
    ("no_line", "no_line_left", "crates/programs/"),
    ("no_text_lem", "no_text", ""),
    ("no_text", "refused_no_text", ""),
    ("too_long_lem", "too_long", ""),
    ("too_long", "refused_too_long", "crates/rules/|crates/desk/|crates/transcriber/"),
    ("outside_form_lem", "refused_outside_form", ""),
    ("shares_cells_lem", "refused_shares_cells", ""),
    ("not_a_cell_lem", "refused_not_a_cell", ""),
    ("print_of_lem", "print_of_pieces", ""),
    ("in_denominator_lem", "is_in_denominator", ""),
    ("after_digit_lem", "past_after_digit", ""),
]
# Names that stand several in a line where they are declared (constructors, and cases of one statement), and names of what a proof is given.
ALSO = """
    a-digit a-hyphen a-lower-zero aBar aComma aDash aHyphen aPercent aStop aToJ allCapitals bar-on breaksPair caps-on count-on digits-on firstDigit
    firstLower fractionBar freeState higher-is is-before is-behind is-capital is-count is-d is-e is-k is-mixed is-n is-new is-point is-run is-s is-w
    its-deed its-mode its-point lacksSign low-is lower-is mixed-on not-nought oneCapital ordinalMark otherDigit otherSign otherSmall part-is past-bar
    past-dash past-feminine past-hyphen past-on past-percent past-point plain-on shows-g some-mark some-point some-run stop-on there-is wasOpen
""".split()
# Of these, those whose new name a definition has already.
ALSO_AMENDED = {"is-point": "point_given", "is-capital": "capital_is", "past-point": "past_point"}
TOKEN = re.compile(r"[^\s(){}.;,@\"«»`\[\]|]+")


def walked_by_hand(path):
    """Is it a file of one function's proof, whose names are Rattle's?"""
    return path.endswith("/Proof.antt")


def sources():
    return sorted(glob.glob("crates/*/specs/**/*.antt", recursive=True) + glob.glob("crates/*/proofs/**/*.antt", recursive=True))


def declared():
    found = {}
    for path in sources():
        if walked_by_hand(path):
            continue
        with open(path, encoding="utf-8") as f:
            for line in f:
                m = None if line.lstrip().startswith("--") else DECLARED.match(line)
                if m:
                    found.setdefault(m[3], path)
    return found


def is_old(name):
    return "-" in name or (name[:1].islower() and re.search(r"[A-Z]", name) is not None)


def spelled(name):
    if name == "T-of-eqb":
        return "is_true_of_eqb"
    words = [w for part in name.split("-") for w in re.findall(r"[A-Z]?[^A-Z]*", part) if w]
    return "_".join(w.lower() for w in words)


def table(found):
    """Each old name with its new one. Definitions, which were in camel case, come first."""
    taken = {n for n in found if not is_old(n)}
    rows = {}
    for name in sorted((n for n in found if is_old(n)), key=lambda n: ("-" in n, n)):
        new = spelled(name)
        if new in taken:
            new += "_lem"
        assert new not in taken, (name, new)
        taken.add(new)
        rows[name] = new
    for name in ALSO:
        new = ALSO_AMENDED.get(name, spelled(name))
        assert name in ALSO_AMENDED or new not in taken, (name, new)
        rows[name] = new
    return rows


def turned(text, rows):
    return TOKEN.sub(lambda m: rows.get(m[0], m[0]), text)


def amended(path):
    """The rows of AMENDED for a file. Rust's own names stay, which none of a definition is spelled like."""
    rows = {}
    for name, new, where in AMENDED:
        if re.match(where, path) and not (path.endswith(".rt") and not name.endswith("_lem")):
            rows[name] = new
    return rows


def in_quotes(text, rows):
    return re.sub(r"`[^`\n]+`", lambda m: turned(m[0], rows), text)


def turn_line(line, rows, remark):
    """The code of a line, and what stands between back-quotes in its remark."""
    at = line.find(remark)
    if at < 0:
        return turned(line, rows)
    return turned(line[:at], rows) + in_quotes(line[at:], rows)


def write(path, text, old):
    if text != old:
        with open(path, "w", encoding="utf-8") as f:
            f.write(text)
        return 1
    return 0


def turn_crates():
    rows = table(declared())
    n = 0
    for path in sources() + sorted(glob.glob("crates/*/src/**/*.rt", recursive=True)):
        with open(path, encoding="utf-8") as f:
            old = f.read()
        remark = "//" if path.endswith(".rt") else "--"
        text = "".join(turn_line(l, rows, remark) for l in old.splitlines(keepends=True))
        n += write(path, turned(text, amended(path)), old)
    every = read_table()
    for name, new in list(every.items()):
        every[name] = rows.get(new, new)
    every.update(rows)
    for path in sorted(glob.glob("crates/*/must-fail/*.edit")):
        with open(path, encoding="utf-8") as f:
            old = f.read()
        n += write(path, "".join(turned(turned(l, every), amended(path)) if re.match(r"(old|new): ", l) else l for l in old.splitlines(keepends=True)), old)
    with open(TABLE, "w", encoding="utf-8") as f:
        f.write("".join(f"{a}\t{b}\n" for a, b in sorted(every.items())))
    print(f"port-names: {len(rows)} names, {n} files; {sum(new.endswith('_lem') for new in rows.values())} lemmas got '_lem': ", *sorted(new for new in rows.values() if new.endswith("_lem")))


def read_table():
    """What port.py itself respelled, which the table holds before the first run."""
    if not os.path.exists(TABLE):
        return {}
    with open(TABLE, encoding="utf-8") as f:
        return dict(l.rstrip("\n").split("\t") for l in f if l.strip())


def turn_files(paths):
    rows = read_table()
    for path in paths:
        with open(path, encoding="utf-8") as f:
            old = f.read()
        write(path, in_quotes(old, rows) if path.endswith(".md") else turned(old, rows), old)


if __name__ == "__main__":
    turn_files(sys.argv[1:]) if sys.argv[1:] else turn_crates()
