#!/bin/sh
# prints: crates/run_rows/stdout
#
# What the program of every short row must write: the counts and the limits, worked out from the paper, and for each row of the vectors
# the answer and the text.
set -eu
cd "$(dirname "$0")/.."

rows=$(sh tools/row-vectors.sh)

cat <<'LINES'
rows of one cell that are read: 42
rows of two cells that are read: 1826
code points with a sign: 120
rows of one cell that are written: 42
rows of two cells that are written: 1826
cells 0: -> 0 0
cells 12288: 0 0 0 0 0 0 0 0 -> 1 12288
cells 12289: 0 0 0 0 0 0 0 0 -> 1 12289
cells 4096: 1 1 1 1 1 1 1 1 -> 0 4096
cells 4097: 1 1 1 1 1 1 1 1 -> 1 4097
cells 12288: 56 52 52 56 52 52 56 52 -> 0 4096
cells 12289: 64 1 1 1 1 1 1 1 -> 1 12289
cells 5: 64 1 1 1 1 -> 7 0
cells 5: 1 1 1 1 64 -> 7 4
cells 5: 255 1 1 1 1 -> 7 0
cells 5: 1 1 1 1 255 -> 7 4
cells 5: 63 1 1 1 1 -> 8 0
cells 5: 63 1 1 1 64 -> 7 4
cells 5: 64 1 1 1 255 -> 7 0
room 0 -> 6 3
room 2 -> 6 3
room 3 -> 0 3
room 4 -> 0 3
LINES

printf '%s\n' "$rows" | awk -F '\t' '{ print $1 " -> " $2 ($3 == "" ? "" : " " $3) }'
