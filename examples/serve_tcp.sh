#!/bin/sh
# Serves a server's file on a port of this machine, by `socat`, and syncs a client's file with it. Each connection is one
# `serve` over the file. While one holds the file, the next tries again: a command that is turned away has read nothing.
#
#     examples/serve_tcp.sh serve FILE PORT             until it is stopped
#     examples/serve_tcp.sh sync FILE PORT              sends what is unsent, and takes what is new
#
# It listens on loopback alone: nothing here authenticates who connects (docs/LIMITS.md, "Peers").
set -u
here=$(cd "$(dirname "$0")" && pwd)
program=${REALM_SYNC:-$here/../realm_sync}
busy=9

# One connection: standard input and output are the peer's.
answer() {
    while :; do
        "$program" serve "$1"
        status=$?
        [ "$status" -eq "$busy" ] || exit "$status"
        sleep 0.02
    done
}

# The connection stays open for 30 seconds after the last byte that is sent, so that a slow answer still comes.
ask() {
    socat -t 30 - "TCP:127.0.0.1:$1"
}

case "${1:-}" in
serve) exec socat "TCP-LISTEN:$3,bind=127.0.0.1,reuseaddr,fork" "EXEC:$0 answer $2" ;;
answer) answer "$2" ;;
sync)
    "$program" send "$2" | ask "$3" | "$program" take "$2"
    "$program" ask "$2" | ask "$3" | "$program" take "$2"
    ;;
*)
    echo "usage: $0 serve FILE PORT | sync FILE PORT" >&2
    exit 1
    ;;
esac
