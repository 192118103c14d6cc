#!/bin/sh
# Prints a table of deeds as a list, crates/CRATE/specs/Deeds.antt: deed-list.sh CRATE TABLE PRINTER WHAT TEST. TABLE is
# tools/deeds.txt or tools/readings.txt (read by tools/deeds.awk), PRINTER the script that runs this one, WHAT says what is
# in the table, TEST is the file with the test. Rows and deeds have the names of the table in small letters: BEGINS_RUN
# is `begins_run`.
#
# Nothing printed is trusted: the prover compares the list with the rules.
set -eu
CDPATH='' cd "$(dirname "$0")/.."

# Bytes and not characters, so that every awk prints the same.
LC_ALL=C
export LC_ALL

crate=$1 table=$2 printer=$3 what=$4 test=$5
places=$(awk -f tools/deeds.awk "$table")
count=$(printf '%s\n' "$places" | awk 'END { print NR }')

# The state and the deed of each place.
named=$(printf '%s\n' "$places" | awk -F '\t' '{ print tolower($2), tolower($3) }')

uses=$(printf '%s\n' "$named" | awk '{ print $2 }' | sort -u | awk '{ printf "%s%s", NR == 1 ? "" : ", ", $0 }')

cat <<TEXT
-- Printed by tools/$printer from $table: change that, and print it again.
-- $what: 16 rows of 16. Where there is no row or no class of a number, there
-- is no sign. That it is what the rules say is shown by a computed test (proofs/$test.antt). Assumes nothing.
use Rattle.std.specs.Prelude.{ℕ, List, [], ◌∷◌}
use Rattle.$crate.specs.Acts.{$uses}

unfoldable pub deeds : List ℕ
deeds =
TEXT

# A line for each state, under a comment.
printf '%s\n' "$named" | awk '
$1 != state {
    if (NR > 1) print ""
    state = $1
    print "    -- " state
    printf "   "
    if (NR == 1) { printf " %s", $2; next }
}
{ printf " ∷ %s", $2 }
END { print "" }'

cat <<TEXT
    ∷ []

-- how many there are
abbrev pub deed_count : ℕ
deed_count = $count
TEXT
