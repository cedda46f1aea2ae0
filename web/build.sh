#!/bin/sh
# Makes web/realm_sync.wasm, the program for the page, and web/build.json, which says from what it was made. What isn't built yet
# of the program and its libraries is proved and built first. With --trial nothing is proved, and the page says so.
set -eu
here=$(cd "$(dirname "$0")" && pwd)
. "$here/tools/need.sh"
need rt "the command of the Rattle toolchain"
need python3 "Python 3"
need git "from which the page has its commit"
need wasm-opt "Debian's package binaryen"
if ! wasm-opt --help | grep -q memory64-lowering; then
    echo "build.sh: this wasm-opt is too old: it knows no --memory64-lowering (binaryen 108 does)" >&2
    exit 1
fi
room=$(mktemp -d)
trap 'rm -rf "$room"' EXIT

python3 "$here/../wasm/test_retarget.py"

module=$("$here/../build" "$@" program.bc)
python3 "$here/../wasm/retarget.py" "$module" "$room/realm_sync.wasm"
mv "$room/realm_sync.wasm" "$here/realm_sync.wasm"
VERDICT=$(cat "$module.verdict") python3 "$here/tools/about.py" "$@"
