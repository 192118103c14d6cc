#!/bin/sh
# prints: crates/entries/proofs/list/word_of/Answers.antt
#
# The answers that the look-up of the sign list leaves open: at each key below 256 antt computes both sides by itself, and asked are the arms of those below 256 that
# have no sign, the keys behind, and what any other code point has. The code points are read from the definitions (tools/sign-list.awk).
#
# Nothing printed is trusted: the prover checks the proof.
set -eu
CDPATH='' cd "$(dirname "$0")/.."

# Bytes and not characters, so that every awk prints the same.
LC_ALL=C
export LC_ALL

looked_up=$(awk -v arms=1 -f tools/sign-list.awk)
unfold='one_for entry_of word then_of usuals_of usual_states bits mark_number sign_of sort_in castilian class is_digit_cell own_cells lower_cells mark_of dots'

# The keys of one part of the look-up: `low`, those below 256, or `far`, the others.
keys() { # PART
    printf '%s\n' "$looked_up" | awk -F '\t' -v part="$1" '$3 == part { print $2 }'
}

# A list of numbers, filled to lines of at most 120 columns.
list() { # NAME
    printf '%s : List ℕ\n%s =\n' "$1" "$1"
    { cat; echo '[]'; } | awk '
    NR == 1 { printf "    %s", $0; column = 4 + length($0); next }
    {
        column += 3 + length($0)
        if (column > 120) { printf "\n   "; column = 6 + length($0) }
        printf " ∷ %s", $0
    }
    END { print "\n" }'
}

cat <<'TEXT'
-- Printed by tools/print-entries-proof.sh: change that.
-- `list::word_of`: at each key antt computes both sides; any other code point is none of the sign list's, and none that is looked up as another
-- (`none_of`). Assumes nothing.
use mathlib.Core.Path.{sym, ap}
use mathlib.Core.Bool.{Bool, ◌||◌, not}
use mathlib.Core.List.{List, [], ◌∷◌}
use Prim.Native.Nat.{ℕ}
use Rattle.std.proofs.Common.{rules}
use Rattle.rules.specs.Castilian.{castilian}
use Rattle.rules.specs.Cells.{dots}
use Rattle.rules.specs.Sorts.{class, is_digit_cell}
use Rattle.rules.specs.Signs.{own_cells, lower_cells}
use Rattle.rules.specs.Pairs.{mark_of}
use Rattle.rules.specs.Rows.{sort_in}
use Rattle.rules.proofs.Finite.{false_of}
use Rattle.rules.proofs.Plain.{one_for}
use Rattle.entries.specs.SignWords.{sign_of}
use Rattle.entries.specs.Entries.{entry_of, word, then_of, usual_states, bits, mark_number, usuals_of}
use Rattle.entries.proofs.Keys.{among, none_of, rest_none, told_of}
use Rattle.entries.proofs.list.word_of.Goals as goal

TEXT
keys low | list low
keys far | list far
cat <<TEXT
abbrev listed : ℕ → Bool
listed k = among low k || among far k

TEXT

# Those without a sign that stand in an arm, which the first of them names.
for parity in even odd; do
    sh tools/unlisted.sh $parity | list $parity
    first=$(sh tools/unlisted.sh $parity | sed -n 1p)
    arm=in-$((first))
    cat <<TEXT
pub returns-$arm : goal.returns-$arm
unfolding low far $parity $unfold
returns-$arm c =
    let p : ℕ = c.args.point in
    none_of listed p tt tt (false_of (listed p) (told_of (λ k. not (listed k)) $parity p tt c.$arm.is))

TEXT
done

cat <<TEXT
pub returns-in_default-point : goal.returns-in_default-point
unfolding low far $unfold
returns-in_default-point c =
    let p : ℕ = c.args.point in
    none_of listed p tt tt (rw ((rest_none Unit low p (search rules)).1, (rest_none Unit far p (search rules)).1))
TEXT

# The keys from 256 on, by their numbers.
for key in $(keys far); do
    arm=in-$((key))
    cat <<TEXT

pub returns-$arm : goal.returns-$arm
unfolding $unfold
returns-$arm c = sym (ap (λ (k : ℕ). entry_of castilian (one_for k)) c.$arm.is)
TEXT
done
