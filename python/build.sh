#!/bin/sh
# Builds the Python package: the shared library into python/src/realm_sync, and the wheel into python/dist.
#
#     python/build.sh [--trial] [--library]
#
# The C library is proved first where it isn't (`./build library`), which takes long on a fresh machine. With --trial nothing is proved, in some
# two minutes: for work on the package alone. --library builds the shared library and no wheel. REALM_SYNC_ARCHIVE names an archive that is
# built already. It takes Python 3 with setuptools and wheel, and a C compiler.
set -eu
here=$(cd "$(dirname "$(readlink -f "$0")")" && pwd)
top=$(dirname "$here")
. "$top/building/need.sh"
trial='' wheel=yes
for word in "$@"; do
    case $word in
        --trial) trial=--trial ;;
        --library) wheel='' ;;
        *) echo "usage: python/build.sh [--trial] [--library]" >&2; exit 2 ;;
    esac
done
need cc gcc
archive=${REALM_SYNC_ARCHIVE:-}
[ -n "$archive" ] || archive=$("$top/build" $trial library | tail -n 1)
library=$here/src/realm_sync/librealm_sync.so
if [ ! -f "$library" ] || [ "$archive" -nt "$library" ]; then
    heap=$(dirname "$(rt doc)")/c/liblibc_c.a
    cc -O2 -fPIC -shared -o "$library.new" -Wl,--whole-archive "$archive" -Wl,--no-whole-archive "$heap"
    mv "$library.new" "$library"
fi
[ -n "$wheel" ] || { echo "$library"; exit 0; }
python=${PYTHON:-/usr/bin/python3}
"$python" -c 'import pip, wheel' 2>/dev/null || need_package "python3-pip python3-wheel"
rm -rf "$here/dist" "$here/build"
# The library asks the C library for nothing newer than version 2.17, which the tag says; else the tag says Linux alone.
newest=$(readelf -V "$library" | grep -o 'GLIBC_2\.[0-9]*' | cut -d. -f2 | sort -n | tail -n 1)
WHEEL_PLATFORM=linux_$(uname -m)
[ "$newest" -gt 17 ] || WHEEL_PLATFORM=manylinux_2_17_$(uname -m)
export WHEEL_PLATFORM
"$python" -m pip wheel --quiet --disable-pip-version-check --no-deps --no-build-isolation --wheel-dir "$here/dist" "$here" >&2
rm -rf "$here/build" "$here"/src/*.egg-info
ls "$here"/dist/*.whl
