#!/bin/sh
# prints: crates/entries/src/list.rt
#
# The sign list as code: the word of each code point by its fields, and the look-up. The signs and their cells are read
# from the definitions (tools/sign-list.awk), so a new sign is a line of crates/rules/specs/Castilian.antt, and a code point that
# normalising replaces by another is looked up as that one. What is the same for every list, as what each class is, stands below
# as text.
#
# Nothing printed is trusted: the prover compares the word of each code point with the rules.
set -eu
CDPATH='' cd "$(dirname "$0")/.."

# Bytes and not characters, so that every awk prints the same.
LC_ALL=C
export LC_ALL

signs=$(awk -f tools/sign-list.awk)
looked_up=$(awk -v arms=1 -f tools/sign-list.awk)

cat <<'TEXT'
// Printed by tools/print-entries.sh from crates/rules/specs/Castilian.antt and Normal.antt: change those, and print it again.
// The sign list: the word of each code point, by its fields. The check compares each with the rules.
ghost use Rattle.std.specs.Prelude.{◌≡◌};
ghost use Rattle.rules.specs.Castilian.{castilian};
ghost use Rattle.rules.proofs.Plain.{one_for};
ghost use Rattle.entries.specs.Entries.{entry_of};

use crate::{CLASS, COUNT, Class, FIRST, LOWER, MARK, SECOND, State, THEN, THIRD, USUAL};

// The cells, by their dots.
TEXT

# The cells that are used: dot d counts 2 to the d - 1.
printf '%s\n' "$signs" | awk -F '\t' '
{
    count = split($5 "-" $6, cell, "-")
    for (i = 1; i <= count; i++) if (cell[i] != "none") print cell[i]
}' | sort -n -u | awk '
{
    value = 0
    for (d = 1; d <= 6; d++) if (index($0, d)) value += 2 ^ (d - 1)
    print "const D" $0 ": u64 = " value ";"
    print ""
}'

cat <<'TEXT'
// The bit of a state, and those of all.
const IN_NUMBER: u64 = USUAL << State::Number as u64;

const IN_LOWERED: u64 = USUAL << State::Lowered as u64;

const IN_ORDINAL: u64 = USUAL << State::Ordinal as u64;

const IN_UNDER: u64 = USUAL << State::Under as u64;

const IN_GUARDED: u64 = USUAL << State::Guarded as u64;

const IN_HYPHENED: u64 = USUAL << State::Hyphened as u64;

const IN_DASHED: u64 = USUAL << State::Dashed as u64;

const IN_CAPITALS: u64 = USUAL << State::Capitals as u64;

const IN_ANY: u64 = (USUAL << State::Free as u64)
    + IN_CAPITALS
    + (USUAL << State::Mixed as u64)
    + IN_NUMBER
    + IN_LOWERED
    + IN_ORDINAL
    + (USUAL << State::Barred as u64)
    + IN_UNDER
    + IN_GUARDED
    + IN_HYPHENED
    + IN_DASHED;

// What a class is: its number, the state after it where it is written as usual, and the states in which it is. (A small letter in a run that was supposed to be of capitals
// only is not: such a run is drawn anew, `passes::draw`.)
const AS_A_TO_J: u64 = CLASS * Class::AToJ as u64 + THEN * State::Mixed as u64 + IN_ANY
    - IN_CAPITALS
    - IN_NUMBER
    - IN_UNDER
    - IN_GUARDED;

const AS_OTHER_SMALL: u64 = CLASS * Class::OtherSmall as u64 + THEN * State::Mixed as u64 + IN_ANY
    - IN_CAPITALS;

const AS_CAPITAL: u64 = CLASS * Class::Capital as u64 + THEN * State::Capitals as u64 + IN_CAPITALS;

const AS_ONE: u64 = CLASS * Class::One as u64 + THEN * State::Number as u64 + IN_NUMBER;

const AS_OTHER_DIGIT: u64 = CLASS * Class::OtherDigit as u64
    + THEN * State::Number as u64
    + IN_NUMBER;

const AS_FULL_STOP: u64 = CLASS * Class::FullStop as u64 + THEN * State::Free as u64 + IN_ANY
    - IN_NUMBER
    - IN_LOWERED;

const AS_COMMA: u64 = CLASS * Class::Comma as u64 + THEN * State::Free as u64 + IN_ANY - IN_NUMBER;

const AS_HYPHEN: u64 = CLASS * Class::Hyphen as u64 + THEN * State::Hyphened as u64 + IN_ANY
    - IN_HYPHENED
    - IN_DASHED;

const AS_DASH: u64 = CLASS * Class::Dash as u64 + THEN * State::Dashed as u64 + IN_ANY
    - IN_HYPHENED;

const AS_BAR: u64 = CLASS * Class::Bar as u64 + THEN * State::Barred as u64 + IN_LOWERED;

const AS_MASCULINE: u64 = CLASS * Class::Masculine as u64 + THEN * State::Free as u64 + IN_ORDINAL;

const AS_FEMININE: u64 = CLASS * Class::Feminine as u64 + THEN * State::Guarded as u64 + IN_ORDINAL;

const AS_PERCENT: u64 = CLASS * Class::Percent as u64 + THEN * State::Free as u64 + IN_ANY;

const AS_OTHER_SIGN: u64 = CLASS * Class::OtherSign as u64 + THEN * State::Free as u64 + IN_ANY;

// A pair mark is another sign that is never written as usual: whether its pair allows it is asked first.
const AS_PAIR_MARK: u64 = CLASS * Class::OtherSign as u64 + THEN * State::Free as u64;

const AS_UNLISTED: u64 = CLASS * Class::Unlisted as u64 + THEN * State::Free as u64;

// A pair mark of kind 0; of kind k, MARK * 2 * k more.
const OPENER: u64 = MARK;

const CLOSER: u64 = MARK * 2;

// The code points of the list.
TEXT

# The word of each (all pair marks are of the class OTHER_SIGN): on one line where its code has at most 100 columns, and otherwise a line for each field.
printf '%s\n' "$signs" | awk -F '\t' '
{
    word = $7 == "none" ? "AS_" $4 : "AS_PAIR_MARK"
    cells = $5 == "none" ? 0 : split($5, cell, "-")
    if (cells) word = word "|COUNT * " cells "|FIRST * D" cell[1]
    if (cells > 1) word = word "|SECOND * D" cell[2]
    if (cells > 2) word = word "|THIRD * D" cell[3]
    if ($6 != "none") word = word "|LOWER * D" $6
    if ($7 != "none") word = word "|" $7
    if ($8 > 0) word = word "|MARK * 2 * " $8

    line = word
    gsub(/[|]/, " + ", line)
    line = "const " $1 ": u64 = " line ";"
    if (length(line) > 100) {
        line = word
        gsub(/[|]/, "\n    + ", line)
        line = "const " $1 ": u64 = " line ";"
    }
    print line " // " $9
    print ""
}'

# The arms of the look-up of one part, each line behind INDENT.
arms() { # PART INDENT
    printf '%s\n' "$looked_up" | awk -F '\t' -v part="$1" -v indent="$2" '
    $3 == part { print indent $2 " => " $1 ", // " $4 }'
}

cat <<'TEXT'
// The word of a code point. All below 256 are named, and the others are asked for behind them: once compiled, the table is read as soon as the code point is known to
// be below 256, by the code point itself. (Those without a sign are in two arms, the even ones and the odd: numbers that follow one another in one arm would be
// compiled to a test of their own. All in one `match` would be a jump and no table.)
#[tactic(auto, unfolding(rules::proofs::Plain::one_for, crate::specs::Entries::entry_of, crate::specs::Entries::word, crate::specs::Entries::then_of, crate::specs::Entries::usuals_of, crate::specs::Entries::usual_states, crate::specs::Entries::bits, crate::specs::Entries::mark_number, crate::specs::SignWords::sign_of, rules::specs::Rows::sort_in, rules::specs::Castilian::castilian, rules::specs::Sorts::class, rules::specs::Sorts::is_digit_cell, rules::specs::Signs::own_cells, rules::specs::Signs::lower_cells, rules::specs::Pairs::mark_of, rules::specs::Cells::dots))]
pub fn word_of(point: u32) -> u64
    ensures { result ≡ entry_of castilian (one_for point) }
{
    match point {
TEXT
arms low '        '
for parity in even odd; do
    sh tools/unlisted.sh $parity | awk '
    NR > 1 { print line }
    { line = (NR == 1 ? "        " : "        | ") $0 }
    END { print line " => AS_UNLISTED," }'
done
echo '        _ => match point {'
arms far '            '
cat <<'TEXT'
            _ => AS_UNLISTED,
        },
    }
}
TEXT
