#!/bin/sh
# Builds the C library, and prints what a program is linked with:
#
#     cc -Iinclude app.c $(examples/c/library.sh) -o app
#
# The shared library, which the Python package loads, is put into out/ at the top, or into the folder of the first argument. It
# takes `rt`, the command of the Rattle toolchain, and a C compiler. What isn't built yet is proved and built first (./build library);
# with REALM_SYNC_TRIAL=1 it is a trial build, without any proof. REALM_SYNC_ARCHIVE=FILE takes that archive, and builds nothing.
set -eu
top=$(cd "$(dirname "$(readlink -f "$0")")/../.." && pwd)
out=${1:-$top/out}
mkdir -p "$out"
archive=${REALM_SYNC_ARCHIVE:-$("$top/build" ${REALM_SYNC_TRIAL:+--trial} library)}
heap=$(dirname "$(rt doc)")/c/liblibc_c.a

# Nodes may be used by several threads at once since the archive has no data that can be written: no section of some size with a W among
# its flags, but for constants that the linker fills in.
if readelf -SW "$archive" | sed 's/^ *\[ *[0-9]*\] *//' |
    awk '$7 ~ /W/ && $5 !~ /^0+$/ && $1 !~ /^\.data\.rel\.ro/ { print $1, $5; found = 1 } END { exit !found }' >&2; then
    echo "library.sh: the archive has data that can be written" >&2
    exit 1
fi
printf '#define REALM_SYNC_API\n#include "realm_sync.h"\n' >"$out/realm_sync.c"
cc -O2 -fPIC -shared -Wall -Wextra -Wpedantic -Werror -I"$top/include" "$out/realm_sync.c" \
    -Wl,--whole-archive "$archive" -Wl,--no-whole-archive "$heap" -o "$out/librealm_sync.so"
echo "$archive $heap"
