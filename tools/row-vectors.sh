#!/bin/sh
# The rows of both vector files that crates/run_rows has room for, with what is read: see row-vectors.awk.
set -eu
export LC_ALL=C

most=$(sed -n 's/^const CELLS_ROOM: usize = \([0-9]*\);$/\1/p' crates/run_rows/src/dots.rt)
[ -n "$most" ] || { echo 'row-vectors: no CELLS_ROOM in crates/run_rows/src/dots.rt' >&2; exit 1; }
awk -v MOST="$most" -f tools/row-vectors.awk vectors/cells-to-print.txt vectors/print-to-cells.txt
