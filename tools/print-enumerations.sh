#!/bin/sh
# prints: crates/rules/proofs/Enumerations.antt
#
# Makes each finite enumeration of the rules a `Finite` type, so that a test over all of its members is one computed Bool.
# For each it prints the list of its members, the law that a test of the whole list holds at each of them, a number for
# each member, and the law that two members with the same number are the same.
#
# The members are read from the declarations, so that they stand in one place only. A declaration looks like
#
#     pub data Class : Type 0 where
#       a_to_j other_small capital one : Class
#       -- a comment
#       a_stop a_comma : Class
#
# Nothing printed is trusted: the prover refuses a member that is left out or that stands at another place than its number.
# To add an enumeration, add a line to the table below: its name, the file that declares it, and the name of the `Finite`
# type to print. Where its file declares the numbers too (`class_number` beside `Class`), those are used and none printed.
set -eu
cd "$(dirname "$0")/.."

# Bytes and not characters, so that every awk prints the same.
LC_ALL=C
export LC_ALL

awk '
function fail(message) {
    print "print-enumerations: " message > "/dev/stderr"
    failed = 1
    exit 1
}

# Reads the members of the enumeration k into member[k, 1], member[k, 2] ..
function read_members(k,    line, word, words, i, inside, status) {
    while ((status = (getline line < file[k])) > 0) {
        if (index(line, "abbrev pub " small[k] "_number :") == 1) { numbered[k] = 1; continue }
        if (line == "pub data " name[k] " : Type 0 where") { inside = 1; continue }
        if (!inside) continue
        sub(/(^|[ \t]+)--.*/, "", line)
        if (line ~ /^[ \t]*$/) continue
        if (line !~ /^[ \t]/) { inside = 0; continue }
        words = split(line, word, " ")
        if (words < 3 || word[words - 1] != ":" || word[words] != name[k])
            fail(file[k] ": not a line of members of " name[k] ": " line)
        for (i = 1; i <= words - 2; i++) member[k, ++size[k]] = word[i]
    }
    if (status < 0) fail("cannot read " file[k])
    close(file[k])
    if (!size[k]) fail(file[k] " declares no members of " name[k])
}

# crates/rules/specs/Sorts.antt is the module Rattle.rules.specs.Sorts.
function module(path,    part) {
    split(path, part, "/")
    sub(/\.antt$/, "", part[4])
    return "Rattle." part[2] "." part[3] "." part[4]
}

# One `use` line for each file, with all that is declared there, in the order of the table.
function print_uses(    k, i, j, names) {
    for (k = 1; k <= count; k++) {
        if (used[file[k]]++) continue
        names = ""
        for (j = k; j <= count; j++) {
            if (file[j] != file[k]) continue
            names = names (names == "" ? "" : ", ") name[j]
            for (i = 1; i <= size[j]; i++) names = names ", " member[j, i]
            if (numbered[j]) names = names ", " small[j] "_number"
        }
        print "use " module(file[k]) ".{" names "}"
    }
}

# The list of the members, on one line where that has at most 120 columns, and otherwise filled to lines of at most 120.
function print_list(k,    i, word, column, wide) {
    column = length(small[k] "_list = []")
    for (i = 1; i <= size[k]; i++) column += length(member[k, i]) + 3
    wide = column > 120

    print "abbrev pub " small[k] "_list : List " name[k]
    printf "%s", small[k] "_list ="
    for (i = 1; i <= size[k] + 1; i++) {
        word = i <= size[k] ? member[k, i] : "[]"
        column += length(word) + 3
        if (wide && (i == 1 || column > 120)) {
            printf "\n   "
            column = length(word) + (i == 1 ? 4 : 6)
        }
        printf "%s", (i == 1 ? " " : " ∷ ") word
    }
    print ""
}

function print_enumeration(k,    i, tails, x, X, first) {
    x = small[k]; X = name[k]; first = member[k, 1]

    print ""
    print "-- " X
    print_list(k)

    print ""
    print "pub " x "_every : (f : " X " → Bool) → All f " x "_list → (x : " X ") → T (f x)"
    tails = ""
    for (i = 1; i <= size[k]; i++) {
        print x "_every f a " member[k, i] " = a" tails ".0"
        tails = tails ".1"
    }

    print ""
    print "abbrev pub " plural[k] " : Finite " X
    print plural[k] " = record { members = " x "_list; at = λ f t. " x "_every f (all f " x "_list t) }"

    if (!numbered[k]) {
        print ""
        print "abbrev pub " x "_number : " X " → ℕ"
        for (i = 1; i <= size[k]; i++) print x "_number " member[k, i] " = " (i - 1)
    }

    print ""
    print "pub " x "_back_number : (x : " X ") → get_or " x "_list (" x "_number x) " first " ≡ x"
    for (i = 1; i <= size[k]; i++) print x "_back_number " member[k, i] " = refl"

    print ""
    print "pub " x "_same : (x y : " X ") → T (eqb (" x "_number x) (" x "_number y)) → x ≡ y"
    print x "_same x y t ="
    print "    sym (" x "_back_number x)"
    print "    ∙ ap (λ (n : ℕ). get_or " x "_list n " first ") (eqb→eq (" x "_number x) (" x "_number y) t)"
    print "    ∙ " x "_back_number y"
}

# The table: NAME FILE PLURAL.
NF == 3 {
    count++
    name[count] = $1
    file[count] = $2
    plural[count] = $3
    small[count] = tolower(substr($1, 1, 1)) substr($1, 2)
    read_members(count)
}

END {
    if (failed) exit 1
    print "-- Printed by tools/print-enumerations.sh from the declarations: change those, and print it again."
    print "-- The finite enumerations of the rules as `Finite` types, and that a member is known by its number. Assumes nothing."
    print "use mathlib.Core.Path.{◌≡◌, refl, sym, ◌∙◌, ap}"
    print "use mathlib.Core.Bool.{Bool}"
    print "use mathlib.Core.List.{List, [], ◌∷◌}"
    print "use Prim.Native.Nat.{ℕ}"
    print "use lib.Dec.{T, eqb, eqb→eq}"
    print "use lib.ListN.{get_or}"
    print "use Rattle.rules.proofs.Finite.{Finite, All, all}"
    print_uses()
    for (k = 1; k <= count; k++) print_enumeration(k)
}
' <<'TABLE'
Class   crates/rules/specs/Sorts.antt    classes
Way     crates/rules/specs/Signs.antt    ways
Cause   crates/rules/specs/Places.antt   causes
Past    crates/rules/proofs/States.antt  pasts
Future  crates/rules/proofs/States.antt  futures
Mode    crates/rules/proofs/States.antt  modes
Kind    crates/rules/proofs/States.antt  kinds
TABLE
