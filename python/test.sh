#!/bin/sh
# Tests the Python package: its types by mypy, its tests, the wheel in an empty environment, and without --quick its examples.
#
#     python/test.sh [--quick] [--quiet] [--trial]
#
# With --quiet nothing is said where all is well. --trial is for work on the package: the library is built without its proof.
#
# It takes Python 3.10 or later, and Debian's python3-mypy, python3-cryptography, python3-websocket and python3-aiohttp. What is missing is
# installed by root, and named else.
set -eu
here=$(cd "$(dirname "$(readlink -f "$0")")" && pwd)
top=$(dirname "$here")
. "$top/building/need.sh"
quick='' trial=''
for word in "$@"; do
    case $word in
        --quick) quick=yes ;;
        --quiet) exec "$top/building/quietly.sh" "$0" "$@" ;;
        --trial) trial=--trial ;;
        *) echo "usage: python/test.sh [--quick] [--quiet] [--trial]" >&2; exit 2 ;;
    esac
done
python=${PYTHON:-/usr/bin/python3}
for module in mypy cryptography websocket aiohttp wheel; do
    "$python" -c "import $module" 2>/dev/null || need_package "python3-$module"
done
"$here/build.sh" $trial >/dev/null
cd "$here"
MYPYPATH=src "$python" -m mypy src tests "$top/examples/shopping"
PYTHONPATH=src "$python" -m unittest discover -t . -s tests
PYTHONPATH=src "$python" examples/first.py | diff - examples/first.out
"$here/tests/empty_project.sh"
"$top/examples/shopping/lines.sh" shopping.py
[ -z "$quick" ] || exit 0
for name in two_phones serve_sockets; do
    PYTHONPATH=src "$python" "examples/$name.py" | diff - "examples/$name.out"
done
[ -d "$top/js/dist" ] || "$top/js/build.sh" $trial >/dev/null
"$here/tests/together/test.sh"
