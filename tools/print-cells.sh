#!/bin/sh
# prints: crates/readings/src/cells.rt
#
# The cells as code: the word of each by its fields, alone and as the second of a sign of two. They are read from the definitions
# (tools/sign-list.awk, tools/cell-list.awk), so a new sign is a line of crates/rules/specs/Castilian.antt; the modes in which
# a class is read as usual are read from tools/readings.txt.
#
# Nothing printed is trusted: the prover compares what is read at each cell with the rules.
set -eu
CDPATH='' cd "$(dirname "$0")/.."

# Bytes and not characters, so that every awk prints the same.
LC_ALL=C
export LC_ALL

cells=$(awk -f tools/sign-list.awk | awk -f tools/cell-list.awk)
places=$(awk -f tools/deeds.awk tools/readings.txt)
names=$(cat tools/named.awk)

cat <<'TEXT'
// Printed by tools/print-cells.sh from crates/rules/specs/Castilian.antt and tools/readings.txt: change those, and print it again.
// What a cell may be: its word, by its fields; and its word as the second of a sign of two, which begins with a cell that is none by itself. The check compares
// what is read at each with the rules.
ghost use Rattle.std.specs.Prelude.{◌≡◌, get_or};
ghost use Rattle.readings.specs.Fields.{letter_in, inside_in, run_in};
ghost use Rattle.readings.specs.Words.{word_of, second_of};

TEXT

{
    for name in CAPITAL_AT CLASS_AT Class FIGURE_AT KIND_AT LOWER_AT Mode NO_POINT POINT_AT POINT_BITS POINT_PLACES RUN_BETWEEN RUN_CAPITAL RUN_FIGURE RUN_LOWER THEN_AT USUAL_AT capital_in point_in; do echo "$name"; done
} | sh tools/imports.sh

cat <<'TEXT'

// How many cells there are. "Cells are bytes 0 to 63"
const CELLS: usize = 64;

const BYTES: usize = 256;

// The word of a cell that begins no sign, and of what is no cell.
const NOTHING: u64 = 0;

// The cells, by their dots.
TEXT

printf '%s\n' "$cells" | awk -F '\t' '
$1 != "two" { print "pub const D" $2 ": u8 = " $1 ";"; print "" }'

cat <<'TEXT'
// The bit of a mode.
TEXT
printf '%s\n' "$places" | awk -F '\t' '
function mode(name) { return substr(name, 1, 1) tolower(substr(name, 2)) }
$3 == "AS_USUAL" && !($2 in told) {
    told[$2] = 1
    print "const IN_" $2 ": u64 = USUAL_AT << Mode::" mode($2) " as u64;"
    print ""
}'

cat <<'TEXT'
// What a class is: its number, the modes in which it is read as usual, and the mode after it then.
TEXT
printf '%s\n' "$places" | awk -F '\t' "$names"'
{
    split($4, name, " ")
    if (!(name[1] in at)) { class[++classes] = name[1]; at[name[1]] = classes }
    if ($3 == "AS_USUAL") usual[name[1]] = usual[name[1]] "\n    + IN_" $2
}
END {
    for (i = 1; i <= classes; i++) {
        c = class[i]
        if (!(c in usual)) continue
        print "const AS_" c ": u64 = CLASS_AT * Class::" named(c) " as u64"
        print "    + THEN_AT * Mode::" (c ~ /LETTER|B_TO_J/ ? "Mixed" : "Free") " as u64" usual[c] ";"
        print ""
    }
}'

cat <<'TEXT'
// The words of the bytes; that of one that is no cell begins no sign. (Each byte has a place in this table, so that in the reading loop nothing is asked first.)
static WORDS: [u64; BYTES] = [
TEXT
{ printf '%s\n' "$places" | awk -F '\t' '$3 == "AS_USUAL" { split($4, name, " "); print "usual\t" name[1] }' | sort -u; printf '%s\n' "$cells"; } | awk -F '\t' "$names"'
$1 == "usual" { usual[$2] = 1; next }
$1 != "two" {
    word = $3 in usual ? "AS_" $3 : $3 == "NOTHING" ? $3 : "CLASS_AT * Class::" named($3) " as u64"
    if ($4 != "none") word = word " + POINT_AT * " $4
    if ($5 != "none") word = word " + CAPITAL_AT * " $5
    if ($6 != "none") word = word " + FIGURE_AT * " $6
    if ($7 != "none") word = word " + LOWER_AT * " $7
    if ($8 != "none") word = word " + KIND_AT * " $8
    print "    " word ", // " $2 ($10 == "" ? "" : ": " $10)
}'
awk 'BEGIN { for (byte = 64; byte < 256; byte++) print "    NOTHING," (byte == 64 ? " // from here on no cells" : "") }'
echo '];'

cat <<'TEXT'

pub fn word_of(cell: u8) -> u64
    ensures { result ≡ word_of cell }
{
    WORDS[cell as usize]
}

// The small letter of a letter, or NO_POINT.
pub fn letter_of(cell: u8) -> u32
    ensures { result ≡ letter_in (word_of cell) }
{
    let word = word_of(cell);
    if capital_in(word) == NO_POINT {
        NO_POINT
    } else {
        point_in(word)
    }
}
TEXT

alone() { # NAME LETTERS
    { printf '%s\n' "$places" | awk '{ print "place\t" $0 }'; printf '%s\n' "$cells"; } | awk -v letters="$2" -f tools/alone-cells.awk | awk -F '\t' -v name="$1" '
    { sum = sum (NR == 1 ? "" : "\n    + ") "(1 << D" $2 ")" }
    END { print "pub const " name ": u64 = " sum ";" }'
}

cat <<'TEXT'

// The cells that are small letters, and those that are signs, wherever nothing is begun and in a run with a small letter: a bit for each.
TEXT
alone LETTERS_ALONE 1
echo
alone SIGNS_ALONE 0

cat <<'TEXT'

// What a table has for a byte; of one that is no cell it has nothing.
fn looked_up(words: &[u64; CELLS], byte: u8) -> u64
    ensures { result ≡ get_or words.now byte 0 }
{
    let place = byte as usize;
    if place < CELLS { words[place] } else { NOTHING }
}

// What a cell is within a run, where each cell is one code point: its digit, its capital, its lower digit, and the full stop or the comma between two digits, a field
// for each.
static RUN_WORDS: [u64; CELLS] = [
TEXT
printf '%s\n' "$cells" | awk -F '\t' '
$1 != "two" {
    word = ""
    if ($6 != "none") word = word " + RUN_FIGURE * " $6
    if ($5 != "none") word = word " + RUN_CAPITAL * " $5
    if ($7 != "none") word = word " + RUN_LOWER * " $7
    if ($9 != $6) word = word " + RUN_BETWEEN * " $9
    print "    " (word == "" ? "NOTHING" : substr(word, 4)) ", // " $2 ($10 == "" ? "" : ": " $10)
}'
echo '];'

cat <<'TEXT'

pub fn run_word(cell: u8) -> u64
    ensures { result ≡ run_in (word_of cell) }
{
    looked_up(&RUN_WORDS, cell)
}

// What a cell is inside a number: its digit, the full stop or the comma; or NO_POINT. (No cell is a digit and one of these, so that two fields of its word within a run make one, without
// a jump.)
#[tactic(auto, using(crate::proofs::Words::inside_told))]
pub fn inside_number(cell: u8) -> u32
    ensures { result ≡ inside_in (word_of cell) }
{
    let word = run_word(cell);
    (word % POINT_PLACES + word / RUN_BETWEEN) as u32
}

// The cells that begin signs of two and are none by themselves, in their order: where the sign of each stands in the word of the second.
TEXT
printf '%s\n' "$cells" | awk -F '\t' '
$1 == "two" { dots[$5] = $2; if ($5 + 1 > count) count = $5 + 1 }
END { for (n = 0; n < count; n++) { print "const BEHIND_" dots[n] ": u64 = 1 << (" n " * POINT_BITS);"; print "" } }'

cat <<'TEXT'
// What a byte is as the second of a sign of two. Of a pair mark the opener stands for both. (Each byte has a place in this table too, so that at a sign of two nothing is asked first.)
static SECOND_WORDS: [u64; BYTES] = [
TEXT
printf '%s\n' "$cells" | awk -F '\t' '
$1 == "two" { before = $6 in word ? word[$6] " + " : ""; word[$6] = before "BEHIND_" $2 " * " $4; said[$6] = said[$6] " " $7; next }
{ dots[$1] = $2 }
END { for (c = 0; c < 64; c++) print "    " (c in word ? word[c] : "NOTHING") ", // " dots[c] (c in word ? ":" said[c] : "") }'
awk 'BEGIN { for (byte = 64; byte < 256; byte++) print "    NOTHING," (byte == 64 ? " // no cells any more" : "") }'
echo '];'

cat <<'TEXT'

pub fn second_word(cell: u8) -> u64
    ensures { result ≡ second_of cell }
{
    SECOND_WORDS[cell as usize]
}
TEXT
