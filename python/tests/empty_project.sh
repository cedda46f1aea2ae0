#!/bin/sh
# The wheel in an empty environment, and there the ten-minute start of python/README.md, as it is printed there.
set -eu
here=$(cd "$(dirname "$(readlink -f "$0")")/.." && pwd)
room=$(mktemp -d)
trap 'rm -rf "$room"' EXIT
python=${PYTHON:-/usr/bin/python3}
"$python" -m venv "$room/venv"
"$room/venv/bin/pip" install --quiet --disable-pip-version-check --no-index "$here"/dist/*.whl
awk '/^```python start.py$/ { on = 1; next } /^```$/ { on = 0 } on' "$here/README.md" >"$room/start.py"
awk '/^```text start.py$/ { on = 1; next } /^```$/ { on = 0 } on' "$here/README.md" >"$room/start.out"
[ -s "$room/start.py" ] && [ -s "$room/start.out" ]
cd "$room"
venv/bin/python start.py | diff - start.out
echo "the ten-minute start runs in an empty environment"

# The shopping list of the terminal, there as well.
printf 'add Milk\nadd Rye bread\nmore 1\ntag 2 bakery\ndone 2\nquit\n' | venv/bin/python "$here/../examples/shopping/shopping.py" list | tail -n 2 >shopping.out
printf '  1 [ ] 2 Milk\n  2 [x] 1 Rye bread #bakery\n' | diff shopping.out -
echo "the shopping list runs in the terminal"
