#!/bin/sh
# The module beside the native library: drawn requests to three clients and a server are handed to both, junk messages and files that are opened again
# among them. Each reply and each outbox must be the same, byte for byte.
#
#     js/test/native/compare.sh [--trial] [SEEDS] [STEPS]
#
# Both are of one build: the library is python/build.sh's, or REALM_SYNC_LIBRARY names it.
set -eu
here=$(cd "$(dirname "$(readlink -f "$0")")" && pwd)
top=$(cd "$here/../../.." && pwd)
trial=''
[ "${1:-}" != --trial ] || { trial=--trial; shift; }
seeds=${1:-3} steps=${2:-1500}
library=${REALM_SYNC_LIBRARY:-$("$top/python/build.sh" $trial --library)}
room=$(mktemp -d)
trap 'rm -rf "$room"' EXIT
for seed in $(seq "$seeds"); do
    node "$here/record.mjs" "$seed" "$steps" "$room/$seed"
    python3 "$here/replay.py" "$library" "$room/$seed"
done
