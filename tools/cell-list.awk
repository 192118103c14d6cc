# Prints the cells, one line for each of the 64, in their order, with tabs between:
#
#     CELL DOTS CLASS POINT CAPITAL FIGURE LOWER KIND INSIDE COMMENT
#     3 12 B_TO_J 0x62 0x42 0x32 none none 0x32 b B 2
#     38 236 MARK_OR_LOW none none none 0x38 2 none « » 8
#
# and behind them, after `two`, each sign of two cells whose first is none by itself, by its code point (but for 46: what
# follows it is code's to decide), with the number of the first among such cells, and the cell of the second:
#
#     two FIRST SECOND POINT NUMBER CELL COMMENT
#     two 5 123 0x7b 0 7 {
#
# POINT is the small letter or the sign that the cell is alone, CAPITAL the capital letter, FIGURE and LOWER the digit of the
# cell and of the cell as a lower digit, KIND that of a pair mark, and of a cell that begins signs of two its number among those,
# INSIDE what the cell is inside a number: its digit, the full stop or the comma. CLASS is a class of tools/readings.txt. Of a
# pair mark of two cells the opener stands for both.
#
# What is read: the lines of tools/sign-list.awk. tools/print-cells.sh and tools/print-cell-list.sh print from these lines.
# Nothing printed is trusted: the prover compares what is read at each cell with the rules.
#
# Run it from the top of the repository with LC_ALL=C: awk -f tools/sign-list.awk | awk -f tools/cell-list.awk

function fail(message) {
    print "cell-list: " message > "/dev/stderr"
    failed = 1
    exit 1
}

# The dots of a cell; dot d counts 2 to the d - 1.
function dots(cell,    d, name) {
    for (d = 1; d <= 6; d++) if (int(cell / 2 ^ (d - 1)) % 2) name = name d
    return name == "" ? "0" : name
}

function say(cell, comment) { said[cell] = said[cell] (said[cell] == "" ? "" : " ") comment }

function take(list, cell, key) {
    if ((list, cell) in has) fail("two signs for " cell " as " list)
    has[list, cell] = key
}

BEGIN { FS = "\t" }

$5 == "none" { next }

# A sign of two cells or more: what it begins with.
$5 ~ /-/ {
    cells = split($5, cell, "-")
    begins[cell[1]] = 1
    if (cells == 2 && $7 != "CLOSER" && cell[1] != "46" && cell[1] != "36") {
        first[++twos] = cell[1]
        second[twos] = cell[2]
        point[twos] = $2
        comment[twos] = $9
    }
    next
}

$7 != "none" { if ($7 == "OPENER") take("kind", $5, $8); say($5, $9); next }
$4 == "CAPITAL" { take("capital", $5, $2); say($5, $9); next }
$4 == "ONE" || $4 == "OTHER_DIGIT" {
    take("figure", $5, $2)
    take("lower", $6, $2)
    say($5, $9)
    say($6, $9)
    next
}
$4 == "MASCULINE" || $4 == "FEMININE" { named[$4] = $5; say($5, $9); next }
{
    if ($4 == "FULL_STOP" || $4 == "COMMA" || $4 == "HYPHEN") named[$4] = $5
    take("point", $5, $2)
    say($5, $9)
}

function class(d) {
    if (d == named["FEMININE"]) return "LETTER_A"
    if (d == named["MASCULINE"]) return "LETTER_O"
    if (("capital", d) in has) return ("figure", d) in has ? "B_TO_J" : "OTHER_LETTER"
    if (d == named["FULL_STOP"]) return "STOP"
    if (d == named["COMMA"]) return "COMMA"
    if (d == named["HYPHEN"]) return "LINE"
    if (("kind", d) in has) return "MARK_OR_LOW"
    if (("point", d) in has) return ("lower", d) in has ? "SIGN_OR_LOW" : "SIGN"
    if (("lower", d) in has) return "LOW_ONLY"
    if (d == "46") return "CAPITAL_SIGN"
    if (d == "3456") return "FIGURE_SIGN"
    if (d == "5") return "SEPARATOR"
    return d in begins ? "PREFIX" : "NOTHING"
}

function or_none(list, d) { return (list, d) in has ? has[list, d] : "none" }

# The number of a cell among those that begin signs of two, in their order.
function number(c,    d) {
    d = dots(c)
    if (class(d) != "SEPARATOR" && class(d) != "PREFIX") return or_none("kind", d)
    if (prefixes == 4) fail("a cell\047s word as the second of a sign has room for 4 cells before it")
    before[d] = prefixes++
    return before[d]
}

function inside(d) { return or_none(d == named["FULL_STOP"] || d == named["COMMA"] ? "point" : "figure", d) }

END {
    if (failed) exit 1
    for (c = 0; c < 64; c++) {
        d = dots(c)
        printf "%d\t%s\t%s\t%s\t%s\t%s\t%s\t%s\t%s\t%s\n", c, d, class(d), or_none("point", d), or_none("capital", d), \
            or_none("figure", d), or_none("lower", d), number(c), inside(d), said[d]
        at[d] = c
    }
    for (i = 1; i <= twos; i++) printf "two\t%s\t%s\t%s\t%s\t%s\t%s\n", first[i], second[i], point[i], before[first[i]], at[second[i]], comment[i]
}
