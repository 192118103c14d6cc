#!/bin/sh
# prints: crates/deeds/src/table.rt
#
# What is done at a place of a text, from tools/deeds.txt, as code. Which deeds are written, asked and refused is read from crates/deeds/src/lib.rt: BEGINS_RUN of the
# table is `BeginsRun`, of the enum `Question`.
#
# Nothing printed is trusted: the prover compares the table with the rules.
set -eu
CDPATH='' cd "$(dirname "$0")/.."

# Bytes and not characters, so that every awk prints the same.
LC_ALL=C
export LC_ALL

cat <<'TEXT'
// Printed by tools/print-deeds.sh from tools/deeds.txt: change that, and print it again. The check compares it with the rules.
// What is done at a place, by its state and the class of its code point: 16 rows of 16, a row for each state.
ghost use Rattle.std.specs.Prelude.{◌≡◌, ◌<◌, get_or};
ghost use Rattle.deeds.specs.Acts.{no_sign};
ghost use Rattle.deeds.specs.Deeds.{deeds, deed_count};
ghost use Rattle.deeds.specs.Numbers.{deed_number};

use crate::{Act, Deed, Fault, Question};

// There is no other place in the table than these.
#[tactic(auto, unfolding(crate::specs::Deeds::deeds))]
pub fn deed_at(place: usize) -> Deed
    requires { place < deed_count }
    ensures { deed_number result ≡ get_or deeds place no_sign }
{
    match place {
TEXT

# An arm for each place, under a comment for each state. The last is for all that the others are not.
places=$(awk -f tools/deeds.awk tools/deeds.txt)
last=$(printf '%s\n' "$places" | awk -F '\t' 'END { print $1 }')
printf '%s\n' "$places" | awk -F '\t' -v last="$last" '
function camel(name,  word, count, i, said) {
    count = split(tolower(name), word, "_")
    for (i = 1; i <= count; i++) said = said toupper(substr(word[i], 1, 1)) substr(word[i], 2)
    return said
}
BEGIN { as["Act"] = "Write"; as["Question"] = "Ask"; as["Fault"] = "Refuse" }
FILENAME != "-" && /^pub enum / { split($0, word, " "); its_enum = word[3]; next }
FILENAME != "-" && /^}/ { its_enum = "" }
FILENAME != "-" && its_enum in as { kind[substr($1, 5, length($1) - 5)] = its_enum }
FILENAME != "-" { next }
$2 != state { state = $2; print "        // " state }
{
    deed = camel($3)
    if (!(deed in kind)) { print "print-deeds: no enum has " deed > "/dev/stderr"; exit 1 }
    print "        " ($1 == last ? "_" : $1) " => Deed::" as[kind[deed]] "(" kind[deed] "::" deed "), // " $4
}' crates/deeds/src/lib.rt -

cat <<'TEXT'
    }
}
TEXT
