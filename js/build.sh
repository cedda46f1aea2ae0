#!/bin/sh
# Builds the npm package into js/dist: the modules of src/, their types, and the C library as WebAssembly.
#
#     js/build.sh [--trial]
#
# The library is proved first where it isn't (`./build library.bc`), which takes long on a fresh machine. With --trial nothing is proved, in
# some four minutes: for work on the package alone. REALM_SYNC_WASM names a module that is built already, in place of both.
# `npm pack ./js` then makes the package's archive.
set -eu
here=$(cd "$(dirname "$(readlink -f "$0")")" && pwd)
top=$(dirname "$here")
. "$top/building/need.sh"
need tsc node-typescript
wasm=${REALM_SYNC_WASM:-}
if [ -z "$wasm" ]; then
    need wasm-opt binaryen
    module=$("$top/build" "$@" library.bc | tail -n 1)
    wasm=$(dirname "$module")/door.wasm
    # (by what it is made of, since ./build marks a module that is current as new)
    of=$(cat "$module" "$top"/wasm/*.py "$top"/wasm/*.c | sha256sum)
    if [ ! -f "$wasm" ] || [ "$(cat "$wasm.of" 2>/dev/null)" != "$of" ]; then
        "$top/wasm/retarget.py" --door "$module" "$wasm.new"
        mv "$wasm.new" "$wasm"
        echo "$of" >"$wasm.of"
    fi
fi
# One at a time, and not where it is current: so tests that run side by side keep what they run over.
mkdir -p "$top/out"
exec 9>"$top/out/js.lock"
flock 9
of=$(cat "$wasm" "$here/tsconfig.json" "$here"/src/*.ts | sha256sum)
if [ ! -d "$here/dist" ] || [ "$(cat "$top/out/js.of" 2>/dev/null)" != "$of" ]; then
    # Beside, and then in its place: what reads the old one meanwhile finds it whole.
    rm -rf "$here/dist.new"
    tsc -p "$here" --outDir "$here/dist.new"
    cp "$wasm" "$here/dist.new/realm_sync.wasm"
    rm -rf "$here/dist"
    mv "$here/dist.new" "$here/dist"
    echo "$of" >"$top/out/js.of"
fi
echo "$here/dist"
