#!/bin/sh
# Prints the line that brings a crate's names in, which are read one to a line: in the order of the layout, in which an underscore goes before a letter, each once, and filled as `rt fmt`
# fills them. The scripts that print code use it.
set -eu

# Bytes and not characters, so that every awk prints the same.
LC_ALL=C
export LC_ALL

tr _ ' ' | sort -u | tr ' ' _ | awk '
{ name[NR] = $0; whole = whole (NR == 1 ? "" : ", ") $0 }
END {
    whole = "use crate::{" whole "};"
    if (length(whole) < 99) { print whole; exit }
    print "use crate::{"
    for (i = 1; i <= NR; i++) {
        if (line != "" && length(line " " name[i] ",") > 99) { print line; line = "" }
        line = line (line == "" ? "    " : " ") name[i] ","
    }
    print line
    print "};"
}'
