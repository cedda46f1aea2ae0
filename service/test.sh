#!/bin/sh
# The service's tests, over files, SQLite and a private PostgreSQL that they start and stop: docs/SERVICE.md, "Tests".
#
#     service/test.sh --quick [--quiet]       all suites, one round of each fault, hostile callers: under three minutes
#     service/test.sh PROGRAM [WORD..]        a program of service/tests: faults.py, attacks.py, load.py, many.py, heavy.py, bench.py
#
# As root it installs by apt-get what it lacks (.ci/packages.sh); else it says what to install. REALM_SYNC_LIBRARY names another library than
# the one that examples/c/library.sh builds.
top=$(cd "$(dirname "$(readlink -f "$0")")/.." && pwd) || exit 1
packages="python3-aiohttp python3-jwt python3-cryptography python3-prometheus-client python3-asyncpg python3-uvloop postgresql gcc libc6-dev"

has_all() {
    "${PYTHON:-/usr/bin/python3}" -c "import aiohttp, jwt, cryptography, prometheus_client, asyncpg, uvloop" 2>/dev/null &&
        command -v cc >/dev/null && { command -v initdb >/dev/null || ls /usr/lib/postgresql/*/bin/initdb >/dev/null 2>&1; }
}

has_all || "$top/.ci/packages.sh" service || exit
PYTHON=${PYTHON:-/usr/bin/python3}
. "$top/service/environment.sh"
if [ "$1" != --quick ]; then
    [ $# -gt 0 ] || { sed -n '2,9s/^# \{0,1\}//p' "$top/service/test.sh"; exit 1; }
    program=$top/service/tests/$1
    shift
    exec "$python" "$program" "$@"
fi

cd "$top/service/tests" || exit 1

out=$(mktemp -d) || exit 1
trap 'rm -rf "$out"' EXIT
# Some at once, since they wait most of their time; the longest first.
suites="test_attacks test_faults test_service.OfFiles test_service.OfPostgres test_service.OfSqlite test_limits test_stores test_service.Workers
    test_service.WithoutConfiguration test_parts test_history"
# shellcheck disable=SC2086
printf '%s\n' $suites | xargs -P $((2 * $(nproc))) -I SUITE sh -c '
    timeout -k 30 600 "$0" -W ignore::ResourceWarning -m unittest SUITE >"$1/SUITE" 2>&1
    echo $? >"$1/SUITE.status"' "$python" "$out"
failed=0
for suite in $suites; do
    if [ "$(cat "$out/$suite.status")" -ne 0 ]; then
        failed=1
        echo "$suite failed:"
        cat "$out/$suite"
    elif [ "$2" != --quiet ]; then
        echo "$suite: $(grep '^Ran ' "$out/$suite")$(sed -n 's/^OK//p' "$out/$suite")"
    fi
done
exit $failed
