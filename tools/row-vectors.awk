# Prints the rows of the vectors, one line for each row, in the order of the files, with tabs between:
#
#     DOTS ANSWER POINTS
#     3456-25-145-5-12 0 4 51 8260 52 98
#     46-1-46-12 8 0
#
# ANSWER is the paper's two numbers of reading the row: 0 and the count of code points, or the refusal's two. POINTS are those of
# the text, in decimal. A row that both files have is printed once; where they do not agree on it, that is a failure.
#
# What is read: vectors/cells-to-print.txt, every row of it, and vectors/print-to-cells.txt, every row of print that is accepted:
# reading gives the print back, normalised. Left out: the empty row, rows above MOST cells, and rows that are given as bytes. The
# program that runs these lines has its own part for those.
#
# tools/row-vectors.sh runs it.

function fail(message) {
    print "row-vectors: " message > "/dev/stderr"
    failed = 1
    exit 1
}

# ---- characters

# The code points of a text in UTF-8, in decimal, with a blank before each.
function points_of(text,    i, n, b, more, list) {
    for (i = 1; i <= length(text); i++) {
        b = byte[substr(text, i, 1)]
        if (b < 128) { n = b; more = 0 }
        else if (b < 192) { if (more < 1) fail("not UTF-8: " text); n = n * 64 + b - 128; more-- }
        else if (b < 224) { n = b - 192; more = 1 }
        else if (b < 240) { n = b - 224; more = 2 }
        else { n = b - 240; more = 3 }
        if (more == 0) list = list " " n
    }
    return list
}

# A number in hexadecimal.
function number_of(digits,    i, n) {
    digits = tolower(digits)
    for (i = 1; i <= length(digits); i++) n = n * 16 + index("0123456789abcdef", substr(digits, i, 1)) - 1
    return n
}

function points_given(list,    i, n, point, all) {
    n = split(list, point, " ")
    for (i = 1; i <= n; i++) all = all " " number_of(point[i])
    return all
}

function is_digit(point) { return 48 <= point && point <= 57 }

# "U+2026 becomes three full stops. “ and « become «; ” and » become ». ‹ becomes ‘ and › becomes ’. º or ª directly after a digit
# gets a full stop before it."
function normalised(list,    i, n, point, all, last) {
    n = split(list, point, " ")
    for (i = 1; i <= n; i++) {
        if (point[i] in becomes) all = all becomes[point[i]]
        else if ((point[i] == 186 || point[i] == 170) && is_digit(last)) all = all " 46 " point[i]
        else all = all " " point[i]
        last = point[i]
    }
    return all
}

# ---- cells

# The dots of cells that are written as braille patterns, the cell's number above U+2800, with a hyphen before each.
function dots_of(patterns,    i, n, point, cell, d, all) {
    n = split(points_of(patterns), point, " ")
    for (i = 1; i <= n; i++) {
        cell = point[i] - 10240
        all = all "-"
        if (cell == 0) all = all "0"
        for (d = 1; d <= 6; d++) if (int(cell / 2 ^ (d - 1)) % 2) all = all d
    }
    return all
}

function dashed(dots) { return dots == "" ? "" : "-" dots }

# ---- a vector

function repeated(what, count,    all) {
    while (count-- > 0) all = all what
    return all
}

# The whole vector is there: its row, and what is read.
function end_vector(row, answer, points) {
    row = before row after
    sub(/^-/, "", row)
    if (row == "" || split(row, cell, "-") > MOST) return
    if (!(row in line)) {
        line[row] = answer points
        print row "\t" answer "\t" substr(points, 2)
    } else if (line[row] != answer points) fail(name ": another vector has the row with another answer")
}

# A text as the answer: 0 and its length.
function end_read(row, points,    n, point) {
    n = split(points, point, " ")
    end_vector(row, "0 " n, points)
}

BEGIN {
    for (i = 1; i < 256; i++) byte[sprintf("%c", i)] = i
    becomes[8230] = " 46 46 46"
    becomes[8220] = " 171"
    becomes[8221] = " 187"
    becomes[8249] = " 8216"
    becomes[8250] = " 8217"
}

/^#/ || /^$/ { next }

{
    word = $0
    sub(/ .*/, "", word)
    rest = substr($0, length(word) + 2)
    of_rows = FILENAME ~ /cells-to-print/
}

word == "name" { name = rest; before = after = given = ""; times = 1; is_cells = 1; next }
word == "times" { times = rest; next }
word == "after" { after = dashed(rest); next }
word == "before" { before = of_rows ? dashed(rest) : dots_of(rest); next }

# a row, and the print it must give
of_rows && word == "bytes" { is_cells = 0; next }
of_rows && !is_cells { next }
of_rows && word == "dots" { given = dashed(rest); next }
of_rows && times * length(given) > 1000 { next }
of_rows && word == "no" { end_vector(repeated(given, times), rest, ""); next }
of_rows && word == "print" { end_read(repeated(given, times), repeated(points_of(rest), times)); next }
of_rows && word == "points" { end_read(repeated(given, times), repeated(points_given(rest), times)); next }

# print, and the row it must give, which is read back
word == "no" { next }
word == "print" { given = points_of(rest); next }
word == "points" { given = points_given(rest); next }
word == "cells" && times * length(rest) > 1000 { next }
word == "cells" { end_read(repeated(dots_of(rest), times), normalised(repeated(given, times))); next }

{ fail(FILENAME ": " $0) }

END { if (failed) exit 1 }
