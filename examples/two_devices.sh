#!/bin/sh
# A phone and a laptop change one note while they are apart. Then they sync with a server, and all three have the same objects.
# Each of the three lives in a file of its own. `send` and `ask` write frames, `serve` replies to them, and `take` takes the
# replies: the frames could as well go over a network.
#
#     examples/two_devices.sh [PROGRAM]         (./realm_sync where it is left out)
set -eu
program=${1:-./realm_sync}
folder=$(mktemp -d)
trap 'rm -rf "$folder"' EXIT

# Transactions of a client. What it answers to each is dropped here; it ends with another status where one isn't read.
edit() {
    "$program" edit "$folder/$1" >"$folder/outcomes"
}

# What a client has goes to the server, and what the server has comes back.
exchange() {
    "$program" send "$folder/$1" | "$program" serve "$folder/server" | "$program" take "$folder/$1" >"$folder/outcomes"
    "$program" ask "$folder/$1" | "$program" serve "$folder/server" | "$program" take "$folder/$1" >"$folder/outcomes"
}

objects() {
    "$program" show "$folder/$1" </dev/null | grep '^{"cells"'
}

# Each client gets its uuid. Its first exchange with the server gives it a number, the second brings what is there.
edit phone <<'LINES'
{"uuid":"00000000-0000-4000-8000-000000000001"}
{"ms":1,"edits":[{"op":"AddTable","table":"notes","key":"Int"},{"op":"AddColumn","table":"notes","column":"text","kind":"Text","nullable":false,"shape":"One"},{"op":"AddColumn","table":"notes","column":"tags","kind":"Text","nullable":false,"shape":"Set"}]}
{"ms":2,"edits":[{"op":"CreateObject","table":"notes","key":1},{"op":"Update","table":"notes","key":1,"column":"text","value":"buy milk"}]}
LINES
edit laptop <<'LINES'
{"uuid":"00000000-0000-4000-8000-000000000002"}
LINES
for round in first second; do
    exchange phone
    exchange laptop
done

# Both change note 1 while they are apart: its text, so that they conflict, and its tags. The laptop has a new note too.
edit phone <<'LINES'
{"ms":10,"edits":[{"op":"Update","table":"notes","key":1,"column":"text","value":"buy bread"},{"op":"SetInsert","table":"notes","key":1,"column":"tags","value":"shop"}]}
LINES
edit laptop <<'LINES'
{"ms":11,"edits":[{"op":"Update","table":"notes","key":1,"column":"text","value":"buy oat milk"},{"op":"SetInsert","table":"notes","key":1,"column":"tags","value":"today"}]}
{"ms":12,"edits":[{"op":"CreateObject","table":"notes","key":2},{"op":"Update","table":"notes","key":2,"column":"text","value":"call home"}]}
LINES
for node in phone laptop; do
    echo "$node, before they sync:"
    objects "$node"
done

for round in first second; do
    exchange phone
    exchange laptop
done
for node in phone laptop server; do
    objects "$node" >"$folder/$node.objects"
done
cmp "$folder/phone.objects" "$folder/server.objects"
cmp "$folder/laptop.objects" "$folder/server.objects"
echo "phone, laptop and server, afterwards:"
cat "$folder/server.objects"
