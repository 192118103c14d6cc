#!/bin/sh
# prints: crates/readings/src/table.rt
#
# What is read at a place of a row, from tools/readings.txt (read by tools/deeds.awk), as code.
#
# Nothing printed is trusted: the prover compares the table with the rules.
set -eu
CDPATH='' cd "$(dirname "$0")/.."

# Bytes and not characters, so that every awk prints the same.
LC_ALL=C
export LC_ALL

places=$(awk -f tools/deeds.awk tools/readings.txt)
names=$(cat tools/named.awk)

cat <<'TEXT'
// Printed by tools/print-readings.sh from tools/readings.txt: change that, and print it again. The check compares it with the rules.
// What is read at a place, by the mode and the class of the cell: 16 rows of 16.
ghost use Rattle.std.specs.Prelude.{◌≡◌, ◌<◌, get_or};
ghost use Rattle.readings.specs.Acts.{deed_number, no_sign};
ghost use Rattle.readings.specs.Deeds.{deeds, deed_count};

use crate::Deed;

// There is no other place in the table than these.
#[tactic(auto, unfolding(crate::specs::Deeds::deeds))]
pub fn deed_at(place: usize) -> Deed
    requires { place < deed_count }
    ensures { deed_number result ≡ get_or deeds place no_sign }
{
    match place {
TEXT

# An arm for each place, under a comment for each mode. The last is for all that the others are not.
last=$(printf '%s\n' "$places" | awk -F '\t' 'END { print $1 }')
printf '%s\n' "$places" | awk -F '\t' -v last="$last" "$names"'
$2 != state { state = $2; print "        // " state }
{ print "        " ($1 == last ? "_" : $1) " => Deed::" named($3) ", // " $4 }'

cat <<'TEXT'
    }
}
TEXT
