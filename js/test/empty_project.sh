#!/bin/sh
# The package's archive in an empty folder, and there the ten-minute start of js/README.md, as it is printed there.
set -eu
here=$(cd "$(dirname "$(readlink -f "$0")")/.." && pwd)
room=$(mktemp -d)
trap 'rm -rf "$room"' EXIT
(cd "$room" && npm pack --silent "$here" >/dev/null)
mkdir "$room/start"
cd "$room/start"
npm install --silent --offline --no-audit --no-fund "$room"/realm-sync-*.tgz
awk '/^```js start.mjs$/ { on = 1; next } /^```$/ { on = 0 } on' "$here/README.md" >start.mjs
awk '/^```text start.mjs$/ { on = 1; next } /^```$/ { on = 0 } on' "$here/README.md" >start.out
[ -s start.mjs ] && [ -s start.out ]
node start.mjs | diff - start.out
echo "the ten-minute start runs in an empty folder"

# And in TypeScript, which finds the types in each way that it looks for modules, and takes the declarations as they are.
cat >typed.mts <<'END'
import { counter, defineSchema, key, text, type ObjectOf } from 'realm-sync';
import { openDatabase } from 'realm-sync/node';
import { hooks } from 'realm-sync/react';
const schema = defineSchema({ items: { id: key.uuid(), title: text(), quantity: counter() } });
export type Item = ObjectOf<typeof schema.declared.items>;
export const opened = async (): Promise<number> => (await openDatabase({ folder: 'typed', schema })).items.first()?.quantity ?? 0;
export { hooks };
END
for way in "es2022 node" "node16 node16"; do
    tsc --noEmit --strict --target es2022 --lib es2022,dom,dom.iterable --module "${way% *}" --moduleResolution "${way#* }" typed.mts
done
echo "its types are found there"

# The shopping list of the terminal, there as well.
cp "$here/../examples/shopping/shopping.mjs" .
printf 'add Milk\nadd Rye bread\nmore 1\ntag 2 bakery\ndone 2\nmore 9\nquit\n' | node shopping.mjs list | tail -n 2 >shopping.out
printf '  1 [ ] 2 Milk\n  2 [x] 1 Rye bread #bakery\n' | diff shopping.out -
echo "the shopping list runs in the terminal"
