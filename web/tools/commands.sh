#!/bin/sh
# Commands over files that the examples' scripts leave out, for compare.sh: trimming, a client that begins with the server's objects,
# and files, input and words that are refused.
#
#     tools/commands.sh PROGRAM
set -u
program=$1
folder=$(mktemp -d)
trap 'rm -rf "$folder"' EXIT
cd "$folder" || exit

exchange() {
    "$program" send "$1" | "$program" serve server | "$program" take "$1"
    "$program" ask "$1" | "$program" serve server | "$program" take "$1"
}

"$program" edit phone <<'LINES'
{"uuid":"00000000-0000-4000-8000-000000000001"}
{"ms":1,"edits":[{"op":"AddTable","table":"notes","key":"Int"},{"op":"CreateObject","table":"notes","key":1}]}
{"ms":2,"edits":[{"op":"CreateObject","table":"notes","key":1},{"op":"CreateObject","table":"notes","key":2}]}
{"ms":3,"edits":[{"op":"CreateObject","table":"elsewhere","key":1}]}
LINES
for round in first second third; do
    exchange phone
done
"$program" show server </dev/null
"$program" trim server >shorter </dev/null
"$program" show shorter </dev/null
"$program" start server 00000000-0000-4000-8000-000000000002 >tablet </dev/null
"$program" show tablet </dev/null
exchange tablet
"$program" rescue phone 1 </dev/null
"$program" show nothing </dev/null
echo "no journal" >picture
"$program" show picture </dev/null
"$program" edit picture </dev/null
echo "no line" | "$program" edit phone
echo "no frame" | "$program" serve server
"$program" draw phone </dev/null
"$program" retire phone 0 </dev/null
true
