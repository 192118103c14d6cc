#!/bin/sh
# prints: crates/run_vectors/stdin
#
# The vectors, as the runner reads them: a program is given no file outside its crate, so this is a copy of the file that
# people edit.
set -eu
cd "$(dirname "$0")/.."

cat vectors/print-to-cells.txt
