#!/bin/sh
# prints: crates/read/stdin
#
# The rows that the program transcribe gives, so that reading them shows the print again, and then the rows of the samples.
set -eu
cd "$(dirname "$0")/.."

LC_ALL=C sed -n 's/^ok //p' crates/transcribe/stdout
cat samples/rows.txt
