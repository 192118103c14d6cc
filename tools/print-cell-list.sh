#!/bin/sh
# prints: crates/readings/specs/Words.antt
#
# The word of each cell, alone and as the second of a sign of two, as lists which the specifications speak of. They are read from the
# definitions (tools/sign-list.awk, tools/cell-list.awk). Classes have the names that they have in tools/readings.txt, in
# small letters: LETTER_A is `letter_a`.
#
# Nothing printed is trusted: the prover compares what is read at each cell with the rules.
set -eu
CDPATH='' cd "$(dirname "$0")/.."

# Bytes and not characters, so that every awk prints the same.
LC_ALL=C
export LC_ALL

cells=$(awk -f tools/sign-list.awk | awk -f tools/cell-list.awk)

places=$(awk -f tools/deeds.awk tools/readings.txt)

classes=$(printf '%s\n' "$cells" | awk -F '\t' '$1 != "two" { print tolower($3) }' | sort -u | awk '{ printf "%s%s", NR == 1 ? "" : ", ", $0 }')
modes=$(printf '%s\n' "$places" | awk -F '\t' '$3 == "AS_USUAL" && !told[$2]++ { printf "%s%s", n++ ? ", " : "", tolower($2) }')

cat <<TEXT
-- Printed by tools/print-cell-list.sh from crates/rules/specs/Castilian.antt and tools/readings.txt: change those, and print it again.
-- The word of each cell by its fields, the cells that are letters or signs alone, and what each cell is as the second of a sign of two whose first is none by itself. That
-- they are what the rules say is shown by computed tests (proofs/Tested.antt; of letters and signs alone, in the crate \`signs\`). Assumes nothing.
use Rattle.std.specs.Prelude.{ℕ, ◌+◌, ◌*◌, ◌^◌, List, [], ◌∷◌, get_or}
use Rattle.readings.specs.Modes.{$modes}
use Rattle.readings.specs.Fields.{$classes, usual_at, point_at, capital_at, figure_at, lower_at, kind_at, class_at, then_at, second_at}

-- WHAT A CLASS IS: its number, the mode after it where it is read as usual, and the modes in which it is
TEXT

printf '%s\n' "$places" | awk -F '\t' '
{
    split($4, name, " ")
    c = name[1]
    if (!(c in at)) { class[++classes] = c; at[c] = classes }
    if ($3 == "AS_USUAL") {
        before = c in usual ? usual[c] " + " : ""
        usual[c] = before "2 ^ " tolower($2)
    }
}
END {
    for (i = 1; i <= classes; i++) {
        c = class[i]
        if (!(c in usual)) continue
        print "abbrev as_" tolower(c) " : ℕ"
        print "as_" tolower(c) " ="
        print "    class_at * " tolower(c) " + then_at * " (c ~ /LETTER|B_TO_J/ ? "mixed" : "free")
        print "    + usual_at * (" usual[c] ")"
        print ""
    }
}'

cat <<'TEXT'
-- THE WORDS, in the order of the cells
unfoldable pub words : List ℕ
words =
TEXT

{ printf '%s\n' "$places" | awk -F '\t' '$3 == "AS_USUAL" { split($4, name, " "); print "usual\t" name[1] }' | sort -u; printf '%s\n' "$cells"; } | awk -F '\t' '
$1 == "usual" { usual[$2] = 1; next }
$1 == "two" { next }
{
    word = "class_at * " tolower($3)
    if ($3 == "NOTHING") word = tolower($3)
    if ($3 in usual) word = "as_" tolower($3)
    if ($4 != "none") word = word " + point_at * " $4
    if ($5 != "none") word = word " + capital_at * " $5
    if ($6 != "none") word = word " + figure_at * " $6
    if ($7 != "none") word = word " + lower_at * " $7
    if ($8 != "none") word = word " + kind_at * " $8
    print "    -- " $2 ($10 == "" ? "" : ": " $10)
    print "    " (n++ ? "∷ " : "") (word ~ / / ? "(" word ")" : word)
}
END { print "    ∷ []" }'

alone() { # NAME LETTERS
    { printf '%s\n' "$places" | awk '{ print "place\t" $0 }'; printf '%s\n' "$cells"; } | awk -v letters="$2" -f tools/alone-cells.awk | awk -F '\t' -v name="$1" '
    BEGIN { print "abbrev pub " name " : ℕ"; print name " =" }
    { print "    -- " $2 ": " $10; print "    " (NR == 1 ? "" : "+ ") "2 ^ " $1 }'
}

cat <<'TEXT'

-- THE CELLS that are small letters, and those that are signs, wherever nothing is begun and in a run with a small letter: a bit for each
TEXT
alone letters_alone 1
echo
alone signs_alone 0

cat <<'TEXT'

-- the word of a byte; one that is no cell begins no sign
abbrev pub word_of : ℕ → ℕ
word_of c = get_or words c 0

-- AS THE SECOND of a sign of two cells, in the order of the cells: the sign for each number of the first, in its field; of a pair mark the opener
unfoldable pub seconds : List ℕ
seconds =
TEXT

printf '%s\n' "$cells" | awk -F '\t' '
$1 == "two" { before = $6 in word ? word[$6] " + " : ""; word[$6] = before "second_at " $5 " * " $4; said[$6] = said[$6] " " $7; next }
{ dots[$1] = $2 }
END {
    for (c = 0; c < 64; c++) {
        print "    -- " dots[c] (c in word ? ":" said[c] : "")
        print "    " (c ? "∷ " : "") (c in word ? "(" word[c] ")" : "0")
    }
    print "    ∷ []"
}'

cat <<'TEXT'

-- that of a byte; one that is no cell ends no sign
abbrev pub second_of : ℕ → ℕ
second_of c = get_or seconds c 0
TEXT
