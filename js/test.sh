#!/bin/sh
# Tests the npm package: its types, its tests in Node, and without --quick also those in a browser, and the module against the native library.
#
#     js/test.sh [--quick] [--quiet] [--trial]
#
# With --quiet nothing is said where all is well. --trial is for work on the package: the library is built without its proof.
#
# It takes node 20 or later, Debian's node-typescript, and for all tests chromium, esbuild and python3. What is missing is installed by root,
# and named else. Where firefox-esr is installed, most tests run there as well.
set -eu
here=$(cd "$(dirname "$(readlink -f "$0")")" && pwd)
top=$(dirname "$here")
. "$top/building/need.sh"
quick='' trial=''
for word in "$@"; do
    case $word in
        --quick) quick=yes ;;
        --quiet) exec "$top/building/quietly.sh" "$0" "$@" ;;
        --trial) trial=--trial ;;
        *) echo "usage: js/test.sh [--quick] [--quiet] [--trial]" >&2; exit 2 ;;
    esac
done
need node nodejs
[ -d /usr/share/nodejs/ws ] || need_package node-ws
"$here/build.sh" $trial >/dev/null
tsc -p "$here/test/types"
tsc -p "$top/examples/shopping/web" --noEmit
node --test "$here"/test/*.test.mjs
node "$here/examples/first.mjs" | diff - "$here/examples/first.out"
"$here/test/empty_project.sh"
"$top/examples/shopping/lines.sh" shopping.mjs
[ -z "$quick" ] || exit 0
need chromium chromium
"$top/examples/shopping/web/build.sh" >/dev/null
node "$here/test/browser/run.mjs"
"$top/examples/shopping/web/build.sh" --bundled >/dev/null
SHOPPING=bundled node "$here/test/browser/run.mjs" "two tabs"
if command -v firefox-esr >/dev/null; then
    BROWSER=firefox node "$here/test/browser/run.mjs"
else
    echo "NOT TRIED: Firefox (Debian's package firefox-esr)"
fi
"$here/test/native/compare.sh" $trial
