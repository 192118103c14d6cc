#!/bin/sh
# prints: crates/run_rows/stdin
#
# The rows of the vectors, each once, in dots: what the program of every short row tries as well.
set -eu
cd "$(dirname "$0")/.."

rows=$(sh tools/row-vectors.sh)
printf '%s\n' "$rows" | cut -f1
