#!/bin/sh
# prints: samples/rows.txt
#
# Rows for the programs read and steps, with bytes that no editor would keep. Each call of row is a line, written as printf takes it, behind it
# what the two programs must print, worked out from paper 01: one answer where both refuse, else that of read and that of steps. To add a row,
# add a call.
set -eu
export LC_ALL=C

row() { printf "$1"'\n'; }
repeated() { awk -v n="$1" -v text="$2" 'BEGIN { while (n--) printf "%s", text; printf "\n" }'; } # COUNT TEXT

# Rows that have a text. A place counts cells.
row '⠼⠓⠐⠃'                # ok 8b      ok 0:8 2:b
row '⠨⠨⠕⠝⠉⠑'              # ok ONCE    ok 0:O 3:N 4:C 5:E
row '⠨⠁⠨⠃⠉'               # ok ABc     ok 0:A 2:B 4:c
row '⠼⠆⠁'                 # ok 2.ª     ok 0:2 2:.ª
row '⠼⠒⠙⠐⠃'               # ok 3⁄4b    ok 0:3 2:⁄4 3:b
row '⠼⠁⠄⠛⠃⠚'              # ok 1.720   ok 0:1 2:. 3:7 4:2 5:0
row '⠢⠨⠎⠌⠢'               # ok ¿Sí?    ok 0:¿ 1:S 3:í 4:?
row '⠼⠁⠚⠀⠸⠴'              # ok 10 %    ok 0:1 2:0 3:  4:%
row '⠸⠴⠴⠤⠤'               # ok ‰—      ok 0:‰ 3:—
row '⠼⠁⠒⠀⠼⠃'              # ok 1: 2    ok 0:1 2:: 3:  4:2
row '⠀⠀'                  # ok and three blanks; ok 0:  1: and a blank
row ''                    # ok and a blank; ok

# 7: not one of the 64 cells
row '⠁a⠃'                 # no 7 1
row '⠁ ⠃'                 # no 7 1: a blank that is typed is not the blank cell
row '⠁⡀'                  # no 7 1: dot 7, the first of the patterns of eight dots
row '⣿⠁'                  # no 7 0: the last of them
row '⟿'                   # no 7 0: U+27FF, just before the patterns
row '⠁⤀'                  # no 7 1: U+2900, just behind them
row '⠁\342\240'           # no 7 1: E2 A0, a cell cut short
row '⠁⠃\377'              # no 7 2: FF
row '\357\273\277⠁'       # no 7 0: a byte order mark
row '⠓⠕⠇⠁\r'              # no 7 4: CR at the end
row 'ok ⠁'                # no 7 0: a row with the ok that transcribe prints
row '⠤⠤⠤⡀'                # no 7 3: 7 is before 8

# 8: a row that no text has
row '⠨⠁⠨⠃'                # no 8 0: AB is 46-46-1-12
row '⠤⠤⠤'                 # no 8 0
row '⠢⠓⠕⠇⠁'               # no 8 0: an odd number of pair marks
row '⠦⠁⠦⠀⠦⠃'              # no 8 0
row '⠼'                   # no 8 0
row '⠼⠁⠄⠼⠃'               # no 8 0: a number goes on behind its point without a new 3456

# 1: a row that reads as a text above 4,096
repeated 4097 '⠁'         # no 1 4097
