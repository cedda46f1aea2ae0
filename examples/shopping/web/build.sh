#!/bin/sh
# Puts the web app into examples/shopping/web/dist: a folder that any server of static files gives out. It takes js/dist (js/build.sh).
#
#     examples/shopping/web/build.sh [--bundled]
#
# With --bundled it is in examples/shopping/web/bundled, as a bundler makes it (Debian's esbuild): two scripts and the module in place of some
# thirty files.
set -eu
here=$(cd "$(dirname "$(readlink -f "$0")")" && pwd)
top=$(cd "$here/../../.." && pwd)
. "$top/building/need.sh"
[ -f "$top/js/dist/realm_sync.wasm" ] || { echo "build.sh: js/build.sh builds the package first" >&2; exit 1; }
case ${1:-} in
    '') out=$here/dist ;;
    --bundled) out=$here/bundled ;;
    *) echo "usage: examples/shopping/web/build.sh [--bundled]" >&2; exit 2 ;;
esac
rm -rf "$out"
mkdir "$out"
if [ "$out" = "$here/dist" ]; then
    need tsc node-typescript
    tsc -p "$here"
    mkdir "$out/realm-sync"
    cp "$top"/js/dist/*.js "$top/js/dist/realm_sync.wasm" "$out/realm-sync/"
    rm "$out/realm-sync/node.js" "$out/realm-sync/storage_node.js"
else
    need esbuild esbuild
    # (esbuild doesn't know the form in which the package names its worker, so the worker is a second entry)
    esbuild "$here/src/app.ts" "$top/js/dist/worker.js" --alias:realm-sync="$top/js/dist/index.js" --bundle --minify --format=esm --target=es2022 \
        --entry-names='[name]' --outdir="$out" --log-level=warning
    cp "$top/js/dist/realm_sync.wasm" "$out/"
fi
cp "$here"/index.html "$here"/*.js "$here"/style.css "$here"/manifest.webmanifest "$here"/icon* "$out/"
cd "$out"
find . -type f ! -name sw.js ! -name files.json | sort | sed 's/.*/"&"/' | paste -sd, | sed 's/.*/["\.\/",&]/' >files.json
echo "$out"
