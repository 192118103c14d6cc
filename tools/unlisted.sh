#!/bin/sh
# Prints the code points below 256 that have no sign, one to a line: the even ones or the odd ones (`even`, `odd`). They are those for which
# tools/sign-list.awk names no arm. tools/print-entries.sh and tools/print-entries-proof.sh print from these lines.
set -eu
CDPATH='' cd "$(dirname "$0")/.."

# Bytes and not characters, so that every awk prints the same.
LC_ALL=C
export LC_ALL

case ${1-} in
even) first=0 ;;
odd) first=1 ;;
*) echo "unlisted: which, even or odd?" >&2; exit 2 ;;
esac

awk -v arms=1 -f tools/sign-list.awk | awk -F '\t' -v first=$first '
{ listed[$2] = 1 }
END {
    for (n = first; n < 256; n += 2) {
        key = sprintf("0x%x", n)
        if (!(key in listed)) print key
    }
}'
