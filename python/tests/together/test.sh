#!/bin/sh
# Both packages with the service of this repository: devices of each on one history, over HTTP and over WebSockets; and files that one package
# encrypted and the other reads; and, where there is Chromium and the page (examples/shopping/web/build.sh), two browsers. It takes js/dist
# (js/build.sh), the shared library (python/build.sh --library) and what ./realm_service takes.
set -eu
here=$(cd "$(dirname "$(readlink -f "$0")")" && pwd)
top=$(cd "$here/../../.." && pwd)
python=${PYTHON:-/usr/bin/python3}
room=$(mktemp -d)
export REALM_SYNC_LIBRARY="${REALM_SYNC_LIBRARY:-$top/python/src/realm_sync/librealm_sync.so}"
export PYTHONPATH="$top/python/src"
port=$("$python" -c 'import socket; s = socket.socket(); s.bind(("127.0.0.1", 0)); print(s.getsockname()[1])')
start() {
    (cd "$room" && exec "$top/realm_service" --folder "$room/histories" --listen "127.0.0.1:$port") >"$room/service" 2>&1 &
    service=$!
    for _ in $(seq 300); do
        grep -qs '^eyJ' "$room/service" && return
        kill -0 "$service" 2>/dev/null || break
        sleep 0.2
    done
    cat "$room/service" >&2
    exit 1
}
service=
trap '[ -z "$service" ] || kill "$service" 2>/dev/null || true; rm -rf "$room"' EXIT
start
REALM_TOKEN=$(grep '^eyJ' "$room/service")
export REALM_TOKEN
for scheme in http ws; do
    url="$scheme://127.0.0.1:$port/v1/histories/$scheme"
    node "$here/device.mjs" "$room/node-$scheme" "$url" node &
    device=$!
    "$python" "$here/device.py" "$room/python-$scheme" "$url" python >"$room/python-$scheme.out"
    wait "$device"
    echo "two packages agree over $scheme: $(cat "$room/python-$scheme.out")"
done
kill "$service"
wait "$service" || true
"$top/realm_service" --folder "$room/histories" raise-generation --all >/dev/null
start
for scheme in http ws; do
    url="$scheme://127.0.0.1:$port/v1/histories/$scheme"
    said="$("$python" "$here/restored.py" "$room/python-$scheme" "$url"); $(node "$here/restored.mjs" "$room/node-$scheme" "$url")"
    echo "a history that was restored, over $scheme: $said"
done
if command -v "${CHROMIUM:-chromium}" >/dev/null && [ -d "$top/examples/shopping/web/dist" ]; then
    node "$here/page.mjs" "ws://127.0.0.1:$port/v1/histories/page"
fi
node "$here/sealed.mjs" write "$room/from_node"
"$python" "$here/sealed.py" read "$room/from_node/client-1"
mkdir "$room/from_python"
"$python" "$here/sealed.py" write "$room/from_python/client-1"
node "$here/sealed.mjs" read "$room/from_python"
