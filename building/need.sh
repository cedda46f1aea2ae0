# Read by the scripts of the packages: `need COMMAND PACKAGE` sees to it that a command is here. As root it installs Debian's package,
# else it says which one it is, and ends the script.
need() {
    command -v "$1" >/dev/null && return
    if [ "$(id -u)" -eq 0 ] && command -v apt-get >/dev/null; then
        (apt-get update && DEBIAN_FRONTEND=noninteractive apt-get install -y --no-install-recommends "$2") >/dev/null 2>&1
        command -v "$1" >/dev/null && return
    fi
    echo "${0##*/}: $1 isn't here: install Debian's package $2" >&2
    exit 1
}

# The same of a package that has no command.
need_package() {
    if [ "$(id -u)" -eq 0 ] && command -v apt-get >/dev/null; then
        (apt-get update && DEBIAN_FRONTEND=noninteractive apt-get install -y --no-install-recommends $1) >/dev/null 2>&1 && return
    fi
    echo "${0##*/}: install Debian's package $1" >&2
    exit 1
}
