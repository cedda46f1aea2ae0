#!/bin/sh
# Compares what the page's module does with what the program does, in node and in headless Chromium. REALM_SYNC names the program
# where it isn't ../realm_sync, which builds it where needed.
here=$(cd "$(dirname "$0")" && pwd)
. "$here/tools/need.sh"
need node "Debian's package nodejs"
need "${CHROMIUM:-chromium}" "Debian's package chromium; CHROMIUM names another browser of that kind"
need_module "$here"
exec node "$here/tools/compare.mjs"
