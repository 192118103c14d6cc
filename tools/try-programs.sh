#!/bin/sh
# Tries the programs transcribe, read and steps from outside, as filters: sh tools/try-programs.sh COMMAND..
#
# COMMAND.. is what runs a program when its name stands behind it, as seen from the top folder: ./desk for ./desk transcribe. Each try prints a
# line 'ok: WHAT', or 'FAILED: WHAT' and then what differs. All are made; the status is 1 if any failed. What must be printed is worked out from
# paper 01, "The line program", or is in the samples. A program that has answered every line ends with status 0 and is silent on standard error.
# POSIX sh; no network; a minute at most.
set -u
export LC_ALL=C
unset CDPATH
cd "$(dirname "$0")/.." || exit 2
[ $# -gt 0 ] || { echo "usage: sh tools/try-programs.sh COMMAND.. (as in: sh tools/try-programs.sh ./desk)" >&2; exit 2; }

room=$(mktemp -d) || exit 2
trap 'rm -rf "$room"' EXIT
trap 'exit 130' HUP INT TERM

# The words of the command, each quoted, so that functions with arguments of their own can run it.
command_words=$(for word; do printf "'%s' " "$(printf '%s\n' "$word" | sed "s/'/'\\\\''/g")"; done)
run() { eval "$command_words \"\$1\""; } # PROGRAM

# ---- what a try says

ok() { printf 'ok: %s\n' "$1"; }

# It stands behind a pipe, where a variable would be lost: a file says that something failed.
failed() { # WHAT; how, on standard input
    : >"$room/any-failed"
    printf 'FAILED: %s\n' "$1"
    sed -n 's/^/    /; 1,12p'
}

# The first four lines that differ, each from a little before the byte at which it does.
differences() { # EXPECTED PRINTED
    awk -v expected="$1" -v printed="$2" '
    function part(there, line, at,  from) {
        if (!there) return "(no such line)"
        from = at > 31 ? at - 30 : 1
        return (from > 1 ? ".." : "|") substr(line, from, 100) (length(line) >= from + 100 ? ".." : "|")
    }
    BEGIN {
        do {
            line++; a = b = ""
            has_a = (getline a <expected) > 0
            has_b = (getline b <printed) > 0
            if (has_a == has_b && a == b) continue
            for (at = 1; at <= length(a) && substr(a, at, 1) == substr(b, at, 1);) at++
            print "line " line ", byte " at "; it must be, and is:"
            print part(has_a, a, at)
            print part(has_b, b, at)
            found++
        } while ((has_a || has_b) && found < 4)
        if (!found) print "the last line end, or a NUL"
    }'
}

# What was printed is in out, what must be in expected, what was said on standard error in err.
judge() { # WHAT STATUS
    if [ -s "$room/err" ]; then
        { echo "on standard error (status $2):"; cat "$room/err"; } | failed "$1"
    elif [ "$2" -ne 0 ]; then
        echo "it ended with status $2" | failed "$1"
    elif ! cmp -s "$room/expected" "$room/out"; then
        differences "$room/expected" "$room/out" | failed "$1"
    else
        ok "$1"
    fi
}

# The program, run on the file in, must print the file expected.
try_files() { # PROGRAM WHAT
    run "$1" <"$room/in" >"$room/out" 2>"$room/err"
    judge "$1: $2" $?
}

# The same, with both as printf takes them.
try() { # PROGRAM WHAT INPUT EXPECTED
    printf "$3" >"$room/in"
    printf "$4" >"$room/expected"
    try_files "$1" "$2"
}

# The text behind 'ok ': of the lines that have it; or of those, with the others as they are, so that lines stay in step.
behind_ok() { sed -n 's/^ok //p'; }
without_ok() { sed 's/^ok //'; }

# What the steps show, joined. A sign of one blank is followed by another blank or by the end, so the blank before a place is told from it.
joined() { sed -n '/^ok/{ s/^ok//; s/ [0-9][0-9]*://g; p; }'; }

# ---- print that is long

# A text many times; octal escapes are taken.
many() { awk -v n="$1" -v text="$2" 'BEGIN { while (n-- > 0) printf "%s", text }'; } # COUNT TEXT

# Megabytes of a text that has 16 bytes, in pieces of 65,536; escapes are taken.
megabytes() { # COUNT TEXT
    awk -v n="$1" -v text="$2" 'BEGIN { ORS = ""; while (length(text) < 65536) text = text text; for (n *= 16; n > 0; n--) print text }'
}

# One line many times over, and what is due.
try_many() { # PROGRAM WHAT COUNT TEXT EXPECTED
    many "$3" "$4" >"$room/in"
    printf "$5" >"$room/expected"
    try_files "$1" "$2"
}

# ---- the paper's example, and the samples

try transcribe "the paper's two lines" '8b\n1.b\n' 'ok ⠼⠓⠐⠃\nno 5 2\n'
try read 'the row of the first of them' '⠼⠓⠐⠃\n' 'ok 8b\n'
try steps 'the row of the first of them' '⠼⠓⠐⠃\n' 'ok 0:8 2:b\n'

for program in transcribe read steps; do
    cat "crates/$program/stdin" >"$room/in"
    cat "crates/$program/stdout" >"$room/expected"
    try_files "$program" 'the samples'
done

# The vectors of print that are typed, each once: not those in code points, and none that is repeated.
awk -v given="$room/in" -v due="$room/expected" '
    /^name / { typed = 0 }
    /^print/ { typed = 1; text = substr($0, 7) }
    /^times/ { typed = 0 }
    /^cells/ && typed { print text >given; print "ok " substr($0, 7) >due }
    /^no / && typed { print text >given; print >due }' vectors/print-to-cells.txt
try_files transcribe "$(($(wc -l <"$room/in"))) vectors"

# An example of the page for teachers is a line '- `TEXT` → `ANSWER`'; the rows begin with a cell.
examples() { sed -n 's/^- `\(.*\)` → `\(.*\)`$/'"$1"'/p' docs/REFUSALS.md; } # WHAT, of the two
cells=$(printf '\342\240')
examples '\1' | grep -v "^$cells" >"$room/in"
examples '\1	\2' | grep -v "^$cells" | cut -f 2 >"$room/expected"
try_files transcribe 'the examples of docs/REFUSALS.md'
examples '\1' | grep "^$cells" >"$room/in"
examples '\1	\2' | grep "^$cells" | cut -f 2 >"$room/expected"
try_files read 'the examples of docs/REFUSALS.md'
try_files steps 'the examples of docs/REFUSALS.md'

# ---- where lines begin and end

for program in transcribe read steps; do
    try "$program" 'empty input prints nothing' '' ''
done

try transcribe 'a last line without a line end' '8b\n8b' 'ok ⠼⠓⠐⠃\nok ⠼⠓⠐⠃\n'
try read 'a last line without a line end' '⠁\n⠃' 'ok a\nok b\n'
try steps 'a last line without a line end' '⠁\n⠃' 'ok 0:a\nok 0:b\n'

try transcribe 'empty lines' '\n\na\n\n' 'ok \nok \nok ⠁\nok \n'
try read 'empty lines' '\n\n⠁\n\n' 'ok \nok \nok a\nok \n'
try steps 'empty lines' '\n\n⠁\n\n' 'ok\nok\nok 0:a\nok\n'

try transcribe 'a CR is a code point without a sign' 'a\r\n\r\na\rb\r' 'no 2 1\nno 2 0\nno 2 1\n'
try read 'a CR is no cell' '⠁\r\n\r\n⠁\r⠃\r' 'no 7 1\nno 7 0\nno 7 1\n'
try steps 'a CR is no cell' '⠁\r\n\r\n⠁\r⠃\r' 'no 7 1\nno 7 0\nno 7 1\n'

try transcribe 'a NUL ends nothing' 'ab\000c\n\000\n8b\n' 'no 2 2\nno 2 0\nok ⠼⠓⠐⠃\n'
try read 'a NUL ends nothing' '⠁⠃\000⠉\n\000\n⠁\n' 'no 7 2\nno 7 0\nok a\n'
try steps 'a NUL ends nothing' '⠁⠃\000⠉\n\000\n⠁\n' 'no 7 2\nno 7 0\nok 0:a\n'

try transcribe 'a sequence cut by the line end, and by the end' 'a\342\240\n\201\na\342\240' 'no 2 1\nno 2 0\nno 2 1\n'
try read 'a sequence cut by the line end, and by the end' '⠁\342\240\n\201\n⠁\342\240' 'no 7 1\nno 7 0\nno 7 1\n'

# ---- how long a line may be, its end not counted

try_many transcribe 'a line of 16,384 bytes' 16384 a 'no 1 16384\n'
try_many transcribe 'a line of 16,385 bytes' 16385 a 'long\n'
{ many 16384 a; echo; many 16385 a; echo; echo 8b; many 100000 a; echo; many 100000 a; echo; echo 8b; } >"$room/in"
printf 'no 1 16384\nlong\nok ⠼⠓⠐⠃\nlong\nlong\nok ⠼⠓⠐⠃\n' >"$room/expected"
try_files transcribe 'long lines, and short ones behind them'

for program in read steps; do
    try_many "$program" 'a line of 40,960 bytes' 40960 a 'no 1 40960\n'
    try_many "$program" 'a line of 40,961 bytes' 40961 a 'long\n'
done
{ many 40960 a; echo; many 40961 a; echo; echo ⠁; many 100000 a; echo; many 100000 a; echo; echo ⠁; } >"$room/in"
printf 'no 1 40960\nlong\nok a\nlong\nlong\nok a\n' >"$room/expected"
try_files read 'long lines, and short ones behind them'
printf 'no 1 40960\nlong\nok 0:a\nlong\nlong\nok 0:a\n' >"$room/expected"
try_files steps 'long lines, and short ones behind them'

# A line without end must not be kept. An emulator of another processor has needs of its own, so memory is limited on x86-64 only.
limit=
case $(uname -m) in x86_64 | amd64) if (ulimit -v 40000) 2>/dev/null; then limit='ulimit -v 40000;'; fi ;; esac
echo long >"$room/expected"
for program in transcribe read steps; do
    megabytes 50 aaaaaaaaaaaaaaaa | (eval "$limit" 'run "$program"') >"$room/out" 2>"$room/err"
    judge "$program: 50 megabytes without a line end${limit:+, in 40 megabytes of memory}" $?
done

# ---- how long a text and a row may be

{ many 4096 a; echo; many 4097 a; echo; many 4096 ‰; echo; many 1365 …; echo; many 1366 …; echo; many 4097 ' '; echo; } >"$room/in"
{
    printf 'ok '; many 4096 ⠁; echo
    echo 'no 1 4097'
    printf 'ok '; many 4096 ⠸⠴⠴; echo
    printf 'ok '; many 4095 ⠄; echo
    echo 'no 1 4098'
    echo 'no 1 4097'
} >"$room/expected"
try_files transcribe '4,096 and 4,097 code points'

{ many 4096 ⠁; echo; many 4097 ⠁; echo; many 4096 ⠸⠴⠴; echo; many 12288 ⠀; echo; many 12289 ⠀; echo; } >"$room/in"
{
    printf 'ok '; many 4096 a; echo
    echo 'no 1 4097'
    printf 'ok '; many 4096 ‰; echo
    echo 'no 1 12288'
    echo 'no 1 12289'
} >"$room/expected"
try_files read '4,096 and 4,097 code points, 12,288 and 12,289 cells'
{
    awk 'BEGIN { printf "ok"; for (i = 0; i < 4096; i++) printf " %d:a", i; print "" }'
    echo 'no 1 4097'
    awk 'BEGIN { printf "ok"; for (i = 0; i < 4096; i++) printf " %d:‰", 3 * i; print "" }'
    echo 'no 1 12288'
    echo 'no 1 12289'
} >"$room/expected"
try_files steps '4,096 and 4,097 code points, 12,288 and 12,289 cells'

# ---- what is one code point (Unicode, table 3-7)

# How many code points a sequence is shows only in the length of a text that is too long: a line has 4,097 to 4,100 bytes of such a sequence. Bytes that are
# no well-formed sequence count one by one, and are then too many; one that is well-formed counts one, and has no sign.
: >"$room/in"
: >"$room/expected"
sequence() { # COUNT SEQUENCE EXPECTED
    { many "$1" "$2"; echo; } >>"$room/in"
    echo "$3" >>"$room/expected"
}
sequence 4097 '\200' 'no 1 4097'             # a lone continuation
sequence 4097 '\377' 'no 1 4097'
sequence 2049 '\300\200' 'no 1 4098'         # overlong
sequence 2049 '\301\277' 'no 1 4098'
sequence 2049 '\302\200' 'no 2 0'
sequence 2049 '\337\277' 'no 2 0'
sequence 2049 '\342\202' 'no 1 4098'         # E2 82 is two
sequence 1366 '\340\237\277' 'no 1 4098'     # overlong
sequence 1366 '\340\240\200' 'no 2 0'
sequence 1366 '\355\237\277' 'no 2 0'
sequence 1366 '\355\240\200' 'no 1 4098'     # ED A0 80, a surrogate, is three
sequence 1366 '\355\277\277' 'no 1 4098'
sequence 1366 '\356\200\202' 'no 2 0'
sequence 1366 '\357\277\277' 'no 2 0'
sequence 1366 '\360\235\235' 'no 1 4098'     # F0 9D 9D is three
sequence 1025 '\360\217\277\277' 'no 1 4100' # overlong
sequence 1025 '\360\220\200\200' 'no 2 0'
sequence 1025 '\363\277\277\277' 'no 2 0'
sequence 1025 '\364\217\277\277' 'no 2 0'    # 10FFFF
sequence 1025 '\364\220\200\200' 'no 1 4100' # above it
sequence 1025 '\365\200\200\200' 'no 1 4100'
sequence 1366 '\342\202a' 'no 1 4098'        # what is cut short does not swallow what follows
sequence 1025 '\360\235\235a' 'no 1 4100'
try_files transcribe 'well-formed sequences and other bytes'

: >"$room/in"
: >"$room/expected"
sequence 6145 '\342\240' 'no 1 12290'
sequence 4097 '\355\240\200' 'no 1 12291'
sequence 4097 '\360\235\235' 'no 1 12291'
sequence 12288 '\342\200\224' 'no 7 0'
sequence 12289 '\342\200\224' 'no 1 12289'
sequence 9000 '\360\235\235\230' 'no 7 0'
sequence 4097 '\342\240⠁' 'no 1 12291'
try_files read 'well-formed sequences and other bytes'
try_files steps 'well-formed sequences and other bytes'

# ---- input that comes in pieces

for program in transcribe read steps; do
    cat "crates/$program/stdout" >"$room/expected"
    for size in 1 7 4093; do
        dd bs="$size" <"crates/$program/stdin" 2>/dev/null | run "$program" >"$room/out" 2>"$room/err"
        judge "$program: the samples in pieces of $size" $?
    done
done

printf 'ok ⠼⠓⠐⠃\nok ⠻⠸⠑\nok \nno 2 1\n' >"$room/expected"
{ printf 8; sleep 1; printf 'b\n\303'; sleep 1; printf '\261\342\202'; sleep 1; printf '\254\n'; sleep 1; printf '\na\342'; } |
    run transcribe >"$room/out" 2>"$room/err"
judge 'transcribe: a slow writer, with sequences cut between pieces' $?

# ---- output that is closed, or cannot be written

# 20 megabytes of short lines, of which one answer is wanted. That not all of the input was read shows that the program ended when its output did.
closed_output() { # PROGRAM LINES EXPECTED
    printf "$3" >"$room/expected"
    rm -f "$room/all"
    { megabytes 20 "$2" 2>/dev/null && echo all >"$room/all"; } | run "$1" 2>"$room/err" | head -n 1 >"$room/out"
    if [ -e "$room/all" ]; then
        echo "it went on reading to the end" | failed "$1: a closed output ends it"
    else
        judge "$1: a closed output ends it, quietly" 0
    fi
}
closed_output transcribe 'aaa\naaa\naaa\naaa\n' 'ok ⠁⠁⠁\n'
closed_output read '⠁⠁\n⠁⠁\na\n' 'ok aa\n'
closed_output steps '⠁⠁\n⠁⠁\na\n' 'ok 0:a 1:a\n'

if [ -c /dev/full ]; then
    for program in transcribe read steps; do
        run "$program" <"crates/$program/stdin" >/dev/full 2>"$room/err"
        status=$?
        what="$program: an output that cannot be written is told"
        if [ ! -s "$room/err" ]; then
            echo "nothing is said on standard error (status $status)" | failed "$what"
        elif [ "$status" -eq 0 ]; then
            echo "it is said, but the status is 0" | failed "$what"
        else
            ok "$what"
        fi
    done
fi

# ---- reading undoes transcribing

there_and_back() { # FILE EXPECTED WHAT
    run transcribe <"$1" 2>"$room/err" | without_ok >"$room/rows"
    run read <"$room/rows" 2>>"$room/err" | without_ok >"$room/out"
    cat "$2" >"$room/expected"
    judge "$3" 0
}
there_and_back samples/loose.txt samples/loose-normal.txt 'a page that is not normalised is read back normalised'
there_and_back samples/page.txt samples/page.txt 'a page is read back byte by byte'

run read <"$room/rows" 2>"$room/err" | behind_ok >"$room/expected"
run steps <"$room/rows" >"$room/steps" 2>>"$room/err"
joined <"$room/steps" >"$room/out"
judge 'steps: the signs of a page, joined, are its text' 0

# A sign has one to three cells: so far is a place from the one before it, and the row's end from the last. A cell has three bytes.
awk 'NR == FNR { cells[NR] = length($0) / 3; next }
    {
        rest = substr($0, 3)
        due = 0; last = 0
        while (match(rest, /^ [0-9]+:/)) {
            place = substr(rest, 2, RLENGTH - 2) + 0
            if (place < due || place > last) print "line " FNR ": place " place " is not within " due " to " last
            due = place + 1; last = place + 3
            # the sign goes on to the next place, and its first byte may be a blank
            rest = substr(rest, RLENGTH + 1)
            rest = match(substr(rest, 2), / [0-9]+:/) ? substr(rest, RSTART + 1) : ""
        }
        if (cells[FNR] < due || cells[FNR] > last) print "line " FNR ": the end, " cells[FNR] ", is not within " due " to " last
    }' "$room/rows" "$room/steps" >"$room/out" 2>"$room/err"
: >"$room/expected"
judge 'steps: the places of a page are one to three cells apart, from 0 to the end' 0

awk -v n=200 -f tools/make-paragraphs.awk >"$room/paragraphs"
there_and_back "$room/paragraphs" "$room/paragraphs" '200 paragraphs are read back byte by byte'

# ---- input at random, the same each time

# 200,000 bytes of any value, the last of them no line end. The shell prints them, since not every awk prints a NUL.
awk 'BEGIN {
    seed = 12345
    for (i = 0; i < 200; i++) {
        piece = ""
        for (j = 0; j < 1000; j++) { seed = seed * 16807 % 2147483647; piece = piece sprintf("\\%03o", int(seed / 8388608)) }
        print piece
    }
}' | sed '$s/....$/\\000/' >"$room/escapes"
while read -r piece; do printf "$piece"; done <"$room/escapes" >"$room/in"

# Short texts of the signs, and a few bytes that are none: many are accepted.
awk 'BEGIN {
    many = split("a b j k z ñ A B Z É 0 1 1 2 9 . . , , º ª ⁄ ¿ ? ¡ ! « » “ ” ‹ › ‘ ’ … - — % ‰ < > { } ( ) / & € ¢ £ † = ; : @ \r", sign, " ")
    sign[++many] = " "; sign[++many] = " "; sign[++many] = "\\"; sign[++many] = "\377"; sign[++many] = "\342\202"
    seed = 54321
    for (i = 0; i < 60000; i++) {
        seed = seed * 16807 % 2147483647
        if (seed % 5 == 0) print ""; else printf "%s", sign[1 + int(seed / 2147483647 * many)]
    }
    print ""
}' >"$room/short"

# One answer for each line, in one of the three forms.
every_line_answered() { # PROGRAM FILE LINES WHAT
    case $1 in transcribe) numbers='[1-5]' ;; *) numbers='[178]' ;; esac
    echo "$3 lines" >"$room/expected"
    run "$1" <"$2" >"$room/answers" 2>"$room/err"
    status=$?
    {
        awk 'END { print NR " lines" }' "$room/answers"
        grep -v -e '^ok' -e "^no $numbers [0-9][0-9]*\$" -e '^long$' "$room/answers"
    } >"$room/out"
    judge "$1: $4, every line answered" "$status"
}
lines=$(($(tr -cd '\n' <"$room/in" | wc -c) + 1))
short_lines=$(($(wc -l <"$room/short")))
for program in transcribe read steps; do
    every_line_answered "$program" "$room/in" "$lines" '200,000 bytes at random'
    every_line_answered "$program" "$room/short" "$short_lines" "$short_lines short texts at random"
done

# The rows of those that are accepted: read and transcribed again, they are the same.
run transcribe <"$room/short" 2>"$room/err" | behind_ok >"$room/rows"
run read <"$room/rows" 2>>"$room/err" | behind_ok >"$room/texts"
run transcribe <"$room/texts" 2>>"$room/err" | behind_ok >"$room/out"
cat "$room/rows" >"$room/expected"
judge "$(($(wc -l <"$room/rows"))) rows of short texts at random, read and transcribed again" 0
run steps <"$room/rows" 2>"$room/err" | joined >"$room/out"
cat "$room/texts" >"$room/expected"
judge 'steps: their signs, joined, are the texts' 0

[ ! -e "$room/any-failed" ]
