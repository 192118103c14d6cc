#!/bin/sh
# prints: samples/refusals.txt
#
# Lines that the program transcribe refuses, with bytes that no editor would keep. Each call of line is one of them, written as printf takes it,
# behind it what the program must print, worked out from paper 01, and why. To add a line, add a call.
set -eu
export LC_ALL=C

line() { printf "$1"'\n'; }
repeated() { awk -v n="$1" -v text="$2" 'BEGIN { while (n--) printf "%s", text; printf "\n" }'; } # COUNT TEXT

# 1: the normalised text is above 4,096 code points. A line above 16,384 bytes is not looked at.
repeated 1366 '…'                   # no 1 4098: each becomes three full stops
repeated 16385 'a'                  # long

# 2: a code point without a sign
line 'Escríbeme a nuria@colegio'    # no 2 17
line '2 + 2 = 4'                    # no 2 2
line 'Hace 25 °C'                   # no 2 8
line '"Hola", dijo Ana'             # no 2 0
line "L'Hospitalet"                 # no 2 1
line '½ kilo de pan'                # no 2 0
line 'Eso… [sic]'                   # no 2 7: places are counted after normalising
line 'uno\tdos'                     # no 2 3: a tab
line 'uno\000dos'                   # no 2 3: NUL
line 'Hola\r'                       # no 2 4: CR, as the editors of some systems end a line
line '\357\273\277Hola'             # no 2 0: a byte order mark
line '\360\235\237\230'             # no 2 0: U+1D7D8, well-formed, no sign

# 2 again: bytes outside any well-formed sequence, each of which counts as one U+FFFD
line 'ab\342\202'                   # no 2 2: E2 82, the € cut short
line 'a\342\202b'                   # no 2 1: the same before a letter, which is not swallowed
line 'a\355\240\200'                # no 2 1: ED A0 80, a surrogate
line 'Sí\377'                       # no 2 2: FF
line '\300\200'                     # no 2 0: C0 80, an overlong form
line 'ñ\360\235\235'                # no 2 1: F0 9D 9D, cut short
line 'uno\364\220\200\200'          # no 2 3: F4 90 80 80, above 10FFFF
line '?\377'                        # no 3 0: the mark comes first

# 3: a pair mark against the pair rule
line '¡Hasta mañana!!'              # no 3 14
line 'Hasta mañana?'                # no 3 12: closed, never opened
line '¿Vienes'                      # no 3 7: open at the end, so the text length
line '»Hola«'                       # no 3 0
line '¿¿Qué??'                      # no 3 1
line '?¿'                           # no 3 0: even in number, and refused
line '«Uno ‘dos»'                   # no 3 10
line '\356\200\200Nota'             # no 3 5: emphasis opened, never closed
line 'l’aula'                       # no 3 1: ’ is always the closer of ‘ ’, not an apostrophe
line '1º?'                          # no 3 3: the text is 1.º?

# 4: º, ª or the fraction bar outside the two forms
line 'n.º 5'                        # no 4 2
line 'M.ª Luisa'                    # no 4 2
line '1.5º'                         # no 4 4: the text is 1.5.º
line '1,5.ª'                        # no 4 4
line '1⁄2º'                         # no 4 4: the text is 1⁄2.º
line '1⁄2⁄3'                        # no 4 3
line 'kilómetros⁄hora'              # no 4 10

# 5: print that would share its cells
line 'El 1.er premio'               # no 5 5: the cells of e would be those of a 5
line 'el apartado 2,a'              # no 5 14
line 'a--b'                         # no 5 2
line '—-No'                         # no 5 1
line '2⁄1'                          # no 5 2
line 'La 2ªb'                       # no 5 6: the text is La 2.ªb

# The last line has no line end.
printf '¿Y la última'               # no 3 12
