#!/bin/sh
# prints: crates/run_vectors/stdout
#
# What the runner must write: that each vector holds, in their order, and how many there are.
set -eu
cd "$(dirname "$0")/.."

awk '$1 == "name" { print "ok " $2; n++ } END { print n " vectors, 0 failed" }' vectors/print-to-cells.txt
