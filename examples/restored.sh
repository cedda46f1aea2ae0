#!/bin/sh
# A phone's file is put back from a backup, and then the server's. Each is told; a new client takes over, and nothing is lost.
#
#     examples/restored.sh [PROGRAM]         (./realm_sync where it is left out)
set -eu
program=${1:-./realm_sync}
folder=$(mktemp -d)
trap 'rm -rf "$folder"' EXIT

# Each command opens its file in a life of its own: 16 bytes that no other opening ever has.
life() {
    od -An -N16 -tx1 /dev/urandom | tr -d ' \n'
}

edit() {
    "$program" edit "$folder/$1" "$(life)" >"$folder/outcomes"
}

exchange() {
    "$program" send "$folder/$1" "$(life)" | "$program" serve "$folder/server" "$(life)" | "$program" take "$folder/$1" "$(life)" >"$folder/outcomes"
    "$program" ask "$folder/$1" "$(life)" | "$program" serve "$folder/server" "$(life)" | "$program" take "$folder/$1" "$(life)" >>"$folder/outcomes"
}

# An heir takes the history first; then it saves what the old file made and the history hasn't.
take_over() {
    exchange "$1"
    exchange "$1"
    "$program" claim "$folder/$1" "$folder/$2" "$(life)" | "$program" serve "$folder/server" "$(life)" |
        "$program" recover "$folder/$1" "$folder/$2" "$(life)"
    exchange "$1"
}

edit phone <<'LINES'
{"uuid":"00000000-0000-4000-8000-000000000001"}
{"ms":1,"edits":[{"op":"AddTable","table":"notes","key":"Int"},{"op":"AddColumn","table":"notes","column":"text","kind":"Text","nullable":false,"shape":"One"}]}
LINES
exchange phone
exchange phone

cp "$folder/phone" "$folder/phone.backup"
cp "$folder/server" "$folder/server.backup"
edit phone <<'LINES'
{"ms":2,"edits":[{"op":"CreateObject","table":"notes","key":1},{"op":"Update","table":"notes","key":1,"column":"text","value":"before the phone was put back"}]}
LINES
exchange phone

# The phone is put back, and written to.
cp "$folder/phone" "$folder/phone.old"
cp "$folder/phone.backup" "$folder/phone"
edit phone <<'LINES'
{"ms":3,"edits":[{"op":"CreateObject","table":"notes","key":2},{"op":"Update","table":"notes","key":2,"column":"text","value":"on the phone that was put back"}]}
LINES
exchange phone
echo "the phone that was put back:"
cat "$folder/outcomes"
edit heir <<'LINES'
{"uuid":"00000000-0000-4000-8000-000000000002"}
LINES
echo "its heir:"
take_over heir phone

# The server is put back to before both notes.
cp "$folder/server.backup" "$folder/server"
exchange heir
echo "the heir, at the server that was put back:"
cat "$folder/outcomes"
edit next <<'LINES'
{"uuid":"00000000-0000-4000-8000-000000000003"}
LINES
echo "its heir, of the phone's first file:"
take_over next phone.old
echo "and of the heir's:"
take_over next heir
echo "server:"
"$program" show "$folder/server" </dev/null | grep '^{"cells"'
