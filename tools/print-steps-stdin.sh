#!/bin/sh
# prints: crates/steps/stdin
#
# The rows that the program read is run on, for the program steps.
set -eu

exec sh "$(dirname "$0")/print-read-stdin.sh"
