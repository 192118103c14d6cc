# Prints the table of tools/deeds.txt, one line for each place of it, 16 rows of 16, a row for each state, with tabs between:
#
#     PLACE STATE DEED CLASS
#     48 NUMBER SEPARATED_LETTER a to j
#
# tools/print-deeds.sh and tools/print-deed-list.sh print from these lines. A line that cannot be read is refused, and so is a
# table in which a class has no deed in some state, or two. A place of no state or of no class has NO_SIGN: with all 256 there,
# the compiled look-up has nothing to test.
#
# Run it from the top of the repository with LC_ALL=C: awk -f tools/deeds.awk tools/deeds.txt

function fail(message) {
    print "deeds: " message > "/dev/stderr"
    failed = 1
    exit 1
}

function wrong(message) { fail(FILENAME ":" FNR ": " message ": " $0) }

function give(s, its_deed) {
    if ((s, classes) in deed) wrong("the class has " s " already")
    deed[s, classes] = its_deed
}

# Each class has a deed in every state.
function close_class(    s) {
    for (s = 1; s <= states; s++)
        if (classes && !((state[s], classes) in deed)) fail("the class `" class[classes] "` has no deed in " state[s])
}

/^[ \t]*(#|$)/ { next }

/^state [A-Z_0-9]+ +[^ ]/ {
    if (classes) wrong("a state behind the classes")
    if ($2 in is_state) wrong("this state stands above")
    is_state[$2] = 1
    state[++states] = $2
    next
}

/^deed [A-Z_0-9]+ +[^ ]/ {
    if ($2 in is_deed) wrong("this deed stands above")
    is_deed[$2] = 1
    next
}

/^class [^ ]/ {
    close_class()
    class[++classes] = substr($0, length("class ") + 1)
    next
}

/^[ \t]+[^ \t]+[ \t]+[^ \t]/ {
    if (!classes) wrong("a deed of no class")
    if (!($NF in is_deed)) wrong("there is no deed " $NF)
    used[$NF] = 1
    if ($1 == "elsewhere" && NF == 2) {
        for (s = 1; s <= states; s++) if (!((state[s], classes) in deed)) give(state[s], $NF)
        next
    }
    for (i = 1; i < NF; i++) {
        if (!($i in is_state)) wrong("there is no state " $i)
        give($i, $NF)
    }
    next
}

{ wrong("not a line of the table") }

END {
    if (failed) exit 1
    close_class()
    if (!states || !classes) fail("there is no table")
    if (classes > 16) fail("a row has room for 16 classes")
    if (states > 16) fail("there is room for 16 states")
    for (d in is_deed) if (!(d in used)) fail("no class has the deed " d)
    for (s = 1; s <= 16; s++)
        for (c = 1; c <= 16; c++) {
            named = s <= states && c <= classes
            its_state = s <= states ? state[s] : "NO_STATE_" (s - 1)
            its_class = c <= classes ? class[c] : "no class has this number"
            printf "%d\t%s\t%s\t%s\n", place++, its_state, named ? deed[its_state, c] : "NO_SIGN", its_class
        }
}
