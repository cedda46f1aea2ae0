# Read by ./realm_service and service/test.sh, which set $top and $packages: finds an interpreter that has these packages of Debian's, and
# builds what is missing: the C library by examples/c/library.sh, unless REALM_SYNC_LIBRARY names one, and the package's C helper.
# PYTHON names another interpreter. Sets $python, REALM_SYNC_LIBRARY, REALM_SERVICE_TURNS and PYTHONPATH.

has_packages() {
    "$1" -c "import sys, aiohttp, jwt, cryptography, prometheus_client; sys.exit(sys.version_info < (3, 11))" 2>/dev/null
}

lacks() {
    echo "${0##*/}: it takes $1 and these packages: apt-get install $packages" >&2
    exit 1
}

python=
for it in ${PYTHON:-python3 /usr/bin/python3}; do
    if [ -z "$python" ] && has_packages "$it"; then
        python=$it
    fi
done
[ -n "$python" ] || lacks "Python 3.11"

if [ -z "$REALM_SYNC_LIBRARY" ]; then
    REALM_SYNC_LIBRARY="$top/out/librealm_sync.so"
    "$top/examples/c/library.sh" >/dev/null || exit
fi
REALM_SERVICE_TURNS="$top/out/librealm_turns.so"
turns=$top/service/src/realm_service/turns.c
if [ ! -e "$REALM_SERVICE_TURNS" ] || [ "$turns" -nt "$REALM_SERVICE_TURNS" ]; then
    command -v cc >/dev/null || lacks "a C compiler"
    mkdir -p "$top/out"
    cc -O2 -std=c11 -fPIC -shared -Wall -Wextra -Wpedantic -Werror "$turns" -o "$REALM_SERVICE_TURNS" || exit
fi
PYTHONPATH="$top/service/src${PYTHONPATH:+:$PYTHONPATH}"
export REALM_SYNC_LIBRARY REALM_SERVICE_TURNS PYTHONPATH
