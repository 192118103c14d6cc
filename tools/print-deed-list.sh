#!/bin/sh
# prints: crates/deeds/specs/Deeds.antt
#
# What is done at a place of a text, from tools/deeds.txt, as a list.
exec "$(dirname "$0")/deed-list.sh" deeds tools/deeds.txt print-deed-list.sh \
    'What is done at a place, by its state and the class of its code point' Machine
