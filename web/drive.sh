#!/bin/sh
# Drives the page in headless Chromium and checks what it shows. With a folder as its argument, pictures go there, as small files
# where pngquant (Debian's package) is.
here=$(cd "$(dirname "$0")" && pwd)
. "$here/tools/need.sh"
need node "Debian's package nodejs"
need "${CHROMIUM:-chromium}" "Debian's package chromium; CHROMIUM names another browser of that kind"
need_module "$here"
node "$here/tools/drive.mjs" "$@" || exit
if [ $# -gt 0 ] && command -v pngquant >/dev/null; then
    pngquant --force --ext .png "$1"/page_*.png
fi
