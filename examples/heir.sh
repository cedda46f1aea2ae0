#!/bin/sh
# A laptop defines a column otherwise than the phone did, and is held up. A new client, its heir, takes over: it saves what can be
# saved of what the laptop made, and syncs on.
#
#     examples/heir.sh [PROGRAM]         (./realm_sync where it is left out)
set -eu
program=${1:-./realm_sync}
folder=$(mktemp -d)
trap 'rm -rf "$folder"' EXIT

edit() {
    "$program" edit "$folder/$1" >"$folder/outcomes"
}

exchange() {
    "$program" send "$folder/$1" | "$program" serve "$folder/server" | "$program" take "$folder/$1" >"$folder/outcomes"
    "$program" ask "$folder/$1" | "$program" serve "$folder/server" | "$program" take "$folder/$1" >>"$folder/outcomes"
}

edit phone <<'LINES'
{"uuid":"00000000-0000-4000-8000-000000000001"}
{"ms":1,"edits":[{"op":"AddTable","table":"notes","key":"Int"},{"op":"AddColumn","table":"notes","column":"text","kind":"Text","nullable":false,"shape":"One"},{"op":"CreateObject","table":"notes","key":1}]}
LINES
edit laptop <<'LINES'
{"uuid":"00000000-0000-4000-8000-000000000002"}
LINES
for round in first second; do
    exchange phone
    exchange laptop
done

# While they are apart both add a column `due`, of two kinds. The laptop writes a text too.
edit phone <<'LINES'
{"ms":10,"edits":[{"op":"AddColumn","table":"notes","column":"due","kind":"Time","nullable":true,"shape":"One"}]}
LINES
edit laptop <<'LINES'
{"ms":11,"edits":[{"op":"AddColumn","table":"notes","column":"due","kind":"Text","nullable":true,"shape":"One"},{"op":"Update","table":"notes","key":1,"column":"text","value":"buy milk"}]}
LINES
exchange phone
exchange laptop
echo "laptop:"
cat "$folder/outcomes"

# The heir is a new client, which takes the history first.
edit heir <<'LINES'
{"uuid":"00000000-0000-4000-8000-000000000003"}
LINES
exchange heir
exchange heir

# It retires ident 2, the laptop's, and recovers what the laptop has unsent.
"$program" retire "$folder/heir" 2 | "$program" serve "$folder/server" >"$folder/frames"
"$program" rescue "$folder/laptop" 0 >>"$folder/frames"
echo "heir:"
"$program" recover "$folder/heir" <"$folder/frames"
exchange heir
echo "server:"
"$program" show "$folder/server" </dev/null | grep '^{"cells"'
