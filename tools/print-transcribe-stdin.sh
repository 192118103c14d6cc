#!/bin/sh
# prints: crates/transcribe/stdin
#
# The print of the samples, one file behind the other: what the program transcribe is run on. The refused lines come last, since their last one has no line end.
set -eu
cd "$(dirname "$0")/.."

cat samples/paper.txt samples/page.txt samples/loose.txt samples/refusals.txt
