#!/bin/sh
# Runs a script with its words but --quiet, and says what it said only where it failed: building/quietly.sh SCRIPT [WORD..]
script=$1
shift
for word in "$@"; do
    shift
    [ "$word" = --quiet ] || set -- "$@" "$word"
done
said=$(mktemp) || exit 1
trap 'rm -f "$said"' EXIT
"$script" "$@" >"$said" 2>&1
status=$?
[ "$status" -eq 0 ] || { echo "$script $* failed:"; cat "$said"; }
exit "$status"
