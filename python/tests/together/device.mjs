// device.mjs FOLDER URL NAME: adds its name, and waits until both names and the sum of both counters are there.
import { createRequire } from 'node:module';
import { counter, defineSchema, key, openDatabase, text } from '../../../js/dist/node.js';

globalThis.WebSocket ??= createRequire(import.meta.url)('/usr/share/nodejs/ws').WebSocket;
const [folder, url, name] = process.argv.slice(2);
const schema = defineSchema({ names: { name: key.text() }, sums: { name: key.text(), count: counter(), last: text() } });
const db = await openDatabase({ folder, schema, sync: { url, token: process.env.REALM_TOKEN, retryFrom: 50 } });
await db.write((tx) => {
  tx.names.create({ name });
  tx.sums.create({ name: 'all' });
  tx.sums.at('all').count.add(21);
});
const late = setTimeout(() => process.exit(1), 60_000);
await new Promise((done) => db.onChange(() => db.names.count() === 2 && db.sums.get('all').count === 42 && done()));
clearTimeout(late);
await db.synced();
await db.close();
