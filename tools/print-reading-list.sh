#!/bin/sh
# prints: crates/readings/specs/Deeds.antt
#
# What is read at a place of a row, from tools/readings.txt, as a list.
exec "$(dirname "$0")/deed-list.sh" readings tools/readings.txt print-reading-list.sh \
    'What is read at a place, by the mode and the class of the cell' Tested
