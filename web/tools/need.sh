# Read by the scripts of this folder: `need WORD WHAT` ends the script where the command WORD isn't here, and says what it is.
need() {
    command -v "$1" >/dev/null && return
    echo "${0##*/}: $1 isn't here: $2" >&2
    exit 1
}

# The same for the module, which build.sh makes.
need_module() {
    [ -f "$1/realm_sync.wasm" ] && return
    echo "${0##*/}: there is no module yet: web/build.sh makes it" >&2
    exit 1
}
