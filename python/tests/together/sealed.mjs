// sealed.mjs write|read FOLDER: an encrypted database, or one that the package for Python encrypted.
import assert from 'node:assert/strict';
import { defineSchema, key, openDatabase, text } from '../../../js/dist/node.js';

const [what, folder] = process.argv.slice(2);
const encryptionKey = Uint8Array.from({ length: 32 }, (_, place) => place);
const db = await openDatabase({ folder, schema: defineSchema({ notes: { id: key.int(), text: text() } }), encryptionKey });
if (what === 'write') for (const id of [1, 2, 3]) await db.write((tx) => tx.notes.create({ id, text: `note ${id}` }));
assert.deepEqual(db.notes.toArray().map((it) => it.text), ['note 1', 'note 2', 'note 3']);
await db.close();
if (what === 'read') console.log('what Python encrypted, JavaScript reads');
