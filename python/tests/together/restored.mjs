// restored.mjs FOLDER URL: the same with the other package, and a new device that begins in the generation of which it is told.
import assert from 'node:assert/strict';
import { createRequire } from 'node:module';
import { counter, defineSchema, key, openDatabase, text } from '../../../js/dist/node.js';

globalThis.WebSocket ??= createRequire(import.meta.url)('/usr/share/nodejs/ws').WebSocket;
const [folder, url] = process.argv.slice(2);
const schema = defineSchema({ names: { name: key.text() }, sums: { name: key.text(), count: counter(), last: text() } });
const sync = { url, token: process.env.REALM_TOKEN, retryFrom: 50 };
setTimeout(() => { console.error('it is not told within a minute'); process.exit(1); }, 60_000).unref();
const db = await openDatabase({ folder, schema });
await db.write((tx) => tx.names.create({ name: 'unsent too' }));
await db.startSync(sync);
await assert.rejects(db.synced(), (error) => error.problem.kind === 'otherServer' && error.problem.generation === 2);
await db.recover();
await db.synced();
const fresh = await openDatabase({ schema, sync });
await fresh.synced();
assert.deepEqual(fresh.names.toArray(), db.names.toArray());
console.log(db.names.toArray().map((it) => it.name).join());
await db.close();
await fresh.close();
