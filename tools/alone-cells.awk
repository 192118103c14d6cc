# The cells that are read alone, as a small letter (letters=1) or as a sign (letters=0): those whose class is read as usual both where nothing is begun and in a run with a small letter, and that have a
# code point of their own. Reads the lines of tools/deeds.awk on tools/readings.txt, each with `place` and a tab before it, and then those of tools/cell-list.awk, of which it prints these.
BEGIN { FS = "\t" }
$1 == "place" {
    split($5, name, " ")
    if ($4 == "AS_USUAL") usual[$3, name[1]] = 1
    next
}
$1 != "two" && $4 != "none" && (("FREE", $3) in usual) && (("MIXED", $3) in usual) && ($3 ~ /LETTER|B_TO_J/) == letters
