# Prints the sign list of crates/rules/specs/Castilian.antt, one line for each code point, in their order, with tabs between:
#
#     NAME KEY PART CLASS CELLS LOWER MARK KIND COMMENT
#     U00A1 0xa1 low OTHER_SIGN 235 none OPENER 1 ¡
#     U2030 0x2030 far OTHER_SIGN 456-356-356 none none 0 ‰
#
# PART is `low` below 256 and `far` from there on. CLASS is a class of crates/entries/src/lib.rt. CELLS and LOWER are cells
# by their dots. MARK and KIND are those of a pair mark. With -v arms=1 it prints the arms of the look-up instead, which are
# those code points and the ones that normalising replaces by one of them:
#
#     NAME KEY PART COMMENT
#     U00AB 0xab low «
#     U00AB 0x201c far “ as «
#
# The two tools/print-entries*.sh print from these lines.
#
# What is read: the table `castilian`, and by name each list that it is made of; `digit_dots` in Sorts.antt; `lower_dots` and
# the clauses of `own_cells` in Signs.antt; `replacements` in Normal.antt. So a new sign is a line there and nothing here. What
# cannot be read is refused. Nothing printed is trusted: the prover compares the word of each code point with the rules.
#
# Run it from the top of the repository with LC_ALL=C: awk -f tools/sign-list.awk

function fail(message) {
    print "sign-list: " message > "/dev/stderr"
    exit 1
}

# ---- characters

# The character of a code point in UTF-8, whether awk counts bytes or characters.
function char(n) {
    if (n < 128 || length("é") == 1) return sprintf("%c", n)
    if (n < 2048) return sprintf("%c%c", 192 + int(n / 64), 128 + n % 64)
    if (n < 65536) return sprintf("%c%c%c", 224 + int(n / 4096), 128 + int(n / 64) % 64, 128 + n % 64)
    return sprintf("%c%c%c%c", 240 + int(n / 262144), 128 + int(n / 4096) % 64, 128 + int(n / 64) % 64, 128 + n % 64)
}

# The code point of a character, found by halving: characters in UTF-8 are in the order of their code points. 0 for no character, or several.
function point_or_0(c,    least, most, middle) {
    least = 1; most = 1114111
    while (least < most) {
        middle = int((least + most) / 2)
        if ((char(middle) "") < (c "")) least = middle + 1; else most = middle
    }
    return (char(least) "") == (c "") ? least : 0
}

function point(c,    n) {
    n = point_or_0(c)
    if (!n) wrong("not one character: " c)
    return n
}

function hexadecimal(digits,    i, n) {
    digits = tolower(digits)
    for (i = 1; i <= length(digits); i++) n = 16 * n + index("0123456789abcdef", substr(digits, i, 1)) - 1
    return n + 0
}

# The comment of a code point: itself, or its name, or its number where there is nothing to see.
function comment(n) {
    if (n in called) return called[n]
    if (n < 33 || n >= 127 && n <= 160 || n == 173 || n >= 8192 && n <= 8207 || n >= 8232 && n <= 8239 \
        || n >= 8287 && n <= 8303 || n == 12288 || n >= 55296 && n <= 63743 || n == 65279) return sprintf("U+%04X", n)
    return char(n)
}

# ---- the words of a definition

# The words of the line go to word[name, 1], word[name, 2] ..
function read_words(name, line,    size) {
    for (;;) {
        sub(/^[ \t]+/, "", line)
        if (line == "" || line ~ /^--/) return
        if (match(line, /^"(\\.|[^"\\])*"/) || match(line, /^[A-Za-z0-9_]+/)) size = RLENGTH
        else if (line ~ /^(\+\+|\[\])/) size = 2
        else if (line ~ /^[(),]/) size = 1
        else if (index(line, "∷") == 1) size = length("∷")
        else fail(file[name] ": cannot read this in `" name "`: " line)
        word[name, ++words[name]] = substr(line, 1, size)
        line = substr(line, size + 1)
    }
}

# Opens the definition `NAME = ..`, which goes on up to the next line that is not indented: `take` gives its words.
function open(path, name,    line, inside, status) {
    if (name in file) fail(path ": `" name "` is read twice")
    file[name] = path
    while ((status = (getline line < path)) > 0) {
        if (index(line, name " =") == 1) {
            if (words[name]) fail(path ": `" name "` is defined twice")
            inside = 1
            line = substr(line, length(name " =") + 1)
        } else if (line ~ /^[^ \t]/ && line !~ /^--/) inside = 0
        if (inside) read_words(name, line)
    }
    if (status < 0) fail("cannot read " path)
    close(path)
    if (!words[name]) fail(path ": there is no `" name " = ..`")
    opened[++depth] = name
    place[depth] = 0
}

function at_end() { return place[depth] == words[opened[depth]] }

function shut() {
    if (!at_end()) wrong("expected its end")
    depth--
}

function take() {
    if (at_end()) wrong("it ends too early")
    return word[opened[depth], ++place[depth]]
}

# Says where the word stands that was taken last.
function wrong(message,    name, i, near) {
    name = opened[depth]
    for (i = place[depth] - 5; i <= place[depth] + 3; i++)
        if ((name, i) in word) near = near (i == place[depth] ? " >" word[name, i] "<" : " " word[name, i])
    fail(file[name] ": `" name "`: " message ", at .." near " ..")
}

function expect(what) {
    if (take() != what) wrong("expected " what)
}

# ---- what the words say

function number(w) {
    if (w ~ /^0x[0-9A-Fa-f]+$/) return hexadecimal(substr(w, 3))
    if (w !~ /^[0-9]+$/) wrong("expected a number")
    return w + 0
}

function truth(w) {
    if (w != "true" && w != "false") wrong("expected true or false")
    return w
}

# the text of "a" or of an escape of Rust's
function quoted(w) {
    if (w !~ /^"..*"$/) wrong("expected a character in quotes")
    w = substr(w, 2, length(w) - 2)
    if (w ~ /^\\u[{][0-9A-Fa-f]+[}]$/) return char(hexadecimal(substr(w, 4, length(w) - 4)))
    if (w == "\\\\" || w == "\\\"") return substr(w, 2)
    if (w ~ /^\\/) wrong("an escape that is not known here")
    return w
}

function literal(w) { return point(quoted(w)) }

# code "a", or a number, in parentheses or not
function read_point(    w, n) {
    w = take()
    if (w == "(") { n = read_point(); expect(")"); return n }
    return w == "code" ? literal(take()) : number(w)
}

# a cell by its dots: 0, or digits from 1 to 6 that rise
function dots(w) {
    if (w !~ /^(0|1?2?3?4?5?6?)$/) wrong("expected the dots of a cell")
    return w
}

# 456 ∷ 356 ∷ [], in parentheses or not: given as 456-356, and as `none` where there is no cell
function read_dots(    w, all) {
    w = take()
    if (w == "(") { all = read_dots(); expect(")"); return all }
    for (; w != "[]"; w = take()) {
        all = all (all == "" ? "" : "-") dots(w)
        expect("∷")
    }
    return all == "" ? "none" : all
}

# cells (456 ∷ 356 ∷ []), in parentheses or not, or []
function read_row(    w, row) {
    w = take()
    if (w == "(") { row = read_row(); expect(")"); return row }
    if (w == "[]") return "none"
    if (w != "cells") wrong("expected cells")
    return read_dots()
}

function own_cells(sort,    row) {
    if (sort in own) return own[sort]
    open(signs, "own_cells " sort)
    row = read_row()
    shut()
    return own[sort] = row
}

# ---- the list

function add(n, its_class, its_cells, its_lower, its_mark, its_kind,    part) {
    if (n in class) wrong(sprintf("U+%04X stands twice in the list", n))
    if (n < 1 || n > 1114111) wrong("there is no such code point")
    if (split(its_cells, part, "-") > 3) wrong("a word has room for three cells")
    if (its_kind > 6) wrong("a word has room for the kinds 0 to 6")
    class[n] = its_class; cells[n] = its_cells; lower[n] = its_lower; mark[n] = its_mark; kind[n] = its_kind
    enlist(n)
}

# all are kept in their order
function enlist(n,    i) {
    for (i = ++count; i > 1 && listed[i - 1] > n; i--) listed[i] = listed[i - 1]
    listed[i] = n
}

function add_sign(n, its_class, its_cells) { add(n, its_class, its_cells, "none", "none", 0) }

# comma, full_stop false, percent (cells (456 ∷ 356 ∷ [])) ..
function read_sort(n,    sort) {
    sort = take()
    if (sort == "percent") { add_sign(n, "PERCENT", read_row()); return }
    if (sort == "plain") { add_sign(n, "OTHER_SIGN", read_row()); return }
    if (sort == "full_stop") { truth(take()); sort = "(full_stop b)" }
    else if (sort == "ordinal") sort = "(ordinal " truth(take()) ")"
    if (!(sort in class_of)) wrong("a sort that is not known here")
    add_sign(n, class_of[sort], own_cells(sort))
}

# ("a" written 1 ∷ []) or (code "a", SORT) or (0x61, SORT), behind its parenthesis
function read_item(    w, n) {
    w = take()
    if (w ~ /^"/) {
        n = literal(w)
        expect("written")
        add_sign(n, "OTHER_SIGN", read_dots())
    } else {
        n = w == "code" ? literal(take()) : number(w)
        expect(",")
        read_sort(n)
    }
    expect(")")
}

# ("a", 1) ∷ .. ∷ []: each letter and its capital, 32 below. a to j are the small letters whose cells are digits.
function read_letters(list,    w, n, cell, among, i) {
    open(castilian, list)
    for (w = take(); w != "[]"; w = take()) {
        if (w != "(") wrong("expected a letter and its dots")
        n = literal(take())
        expect(",")
        cell = dots(take())
        expect(")")
        among = "OTHER_SMALL"
        for (i = 1; i <= 10; i++) if (digit_dots[i] == cell) among = "A_TO_J"
        add_sign(n, among, cell)
        add_sign(n - 32, "CAPITAL", cell)
        expect("∷")
    }
    shut()
}

# both lists of digits are in the order 1 to 9 and 0
function add_digits(n,    d, i) {
    if (n > 10) wrong("there are ten digits")
    for (d = 0; d < n; d++) {
        i = (d + 9) % 10 + 1
        add(point("0") + d, d == 1 ? "ONE" : "OTHER_DIGIT", digit_dots[i], lower_dots[i], "none", 0)
    }
}

# pair KIND OPENER CLOSER DOTS
function read_pair(    its_kind, opener, closer, its_cells) {
    its_kind = number(take())
    opener = read_point()
    closer = read_point()
    its_cells = read_dots()
    add(opener, "OTHER_SIGN", its_cells, "none", "OPENER", its_kind)
    add(closer, "OTHER_SIGN", its_cells, "none", "CLOSER", its_kind)
}

# A table: items, each before ∷, and tables, each before ++ or the end.
function read_table(name,    w) {
    open(castilian, name)
    for (;;) {
        w = take()
        if (w == "(") { read_item(); expect("∷"); continue }
        if (w == "letters") read_letters(take())
        else if (w == "digits") add_digits(number(take()))
        else if (w == "pair") read_pair()
        else if (w ~ /^[a-z]/) read_table(w)
        else if (w != "[]") wrong("expected a sign or a table")
        if (at_end()) break
        expect("++")
    }
    shut()
}

# ("…", "...") ∷ ("“", "«") ∷ .. ∷ []: of these, each that becomes one code point of the list
function read_replacements(    w, n, one) {
    open(normal, "replacements")
    for (w = take(); w != "[]"; w = take()) {
        if (w != "(") wrong("expected a code point and what it becomes")
        n = literal(take())
        if (n in class) wrong("it is replaced, and has a sign")
        expect(",")
        one = point_or_0(quoted(take()))
        expect(")")
        if (one in class) { taken_for[n] = one; enlist(n) }
        expect("∷")
    }
    shut()
}

function read_ten(path, name, into) {
    open(path, name)
    if (split(read_dots(), into, "-") != 10) wrong("expected the ten digits")
    shut()
}

BEGIN {
    castilian = "crates/rules/specs/Castilian.antt"
    sorts = "crates/rules/specs/Sorts.antt"
    signs = "crates/rules/specs/Signs.antt"
    normal = "crates/rules/specs/Normal.antt"

    # the class of each sort that has its own cells
    class_of["(full_stop b)"] = "FULL_STOP"
    class_of["comma"] = "COMMA"
    class_of["hyphen"] = "HYPHEN"
    class_of["dash"] = "DASH"
    class_of["fraction_bar"] = "BAR"
    class_of["(ordinal false)"] = "MASCULINE"
    class_of["(ordinal true)"] = "FEMININE"

    # code points with nothing to see that have a name
    called[hexadecimal("20")] = "space"
    called[hexadecimal("e000")] = "emphasis opens"
    called[hexadecimal("e001")] = "emphasis closes"

    read_ten(sorts, "digit_dots", digit_dots)
    read_ten(signs, "lower_dots", lower_dots)
    read_table("castilian")
    if (arms) read_replacements()

    for (i = 1; i <= count; i++) {
        n = listed[i]
        part = n < 256 ? "low" : "far"
        if (n in taken_for) printf "U%04X\t0x%x\t%s\t%s as %s\n", taken_for[n], n, part, comment(n), comment(taken_for[n])
        else if (arms) printf "U%04X\t0x%x\t%s\t%s\n", n, n, part, comment(n)
        else printf "U%04X\t0x%x\t%s\t%s\t%s\t%s\t%s\t%d\t%s\n", n, n, part, class[n], cells[n], lower[n], mark[n], kind[n], comment(n)
    }
}
