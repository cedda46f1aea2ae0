#!/bin/sh
# How many lines programs of this folder have: examples/shopping/lines.sh FILE.. The status is 1 where one has more than 80, or a line of more than
# 150 letters.
cd "$(dirname "$0")" && awk '
    length > 150 { print FILENAME ": line " FNR " has " length " letters"; bad = 1 }
    { lines[FILENAME] = FNR }
    END {
        for (at = 1; at < ARGC; at++) {
            print ARGV[at] ": " lines[ARGV[at]] " lines"
            if (lines[ARGV[at]] > 80) bad = 1
        }
        exit bad
    }' "$@"
