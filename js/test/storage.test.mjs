import assert from 'node:assert/strict';
import { spawn } from 'node:child_process';
import fs from 'node:fs';
import os from 'node:os';
import path from 'node:path';
import test from 'node:test';
import { BadFile, Busy, FileImage, MemoryFiles, StorageFailed, WrongKey, defineSchema, deleteDatabase, key, openDatabase, text } from '../dist/node.js';
import { Tag } from '../dist/messages.js';
import { FailingFiles, fast, memory, objectsOf, online, schema, server } from './common.mjs';

test('a storage that fails at each stroke loses nothing that was answered, and is opened again', async () => {
  for (let at = 1; at <= 12; at++) {
    const files = new FailingFiles();
    const db = await memory(files);
    await db.write((tx) => tx.days.create({ day: 1, note: 'before' }));
    files.failAt = at;
    const said = [];
    for (let day = 2; day < 6; day++) said.push(await db.write((tx) => tx.days.create({ day })).then(() => 'done', (error) => error.constructor.name));
    assert.ok(said.every((it) => it === 'done' || it === 'StorageFull'), said.join());
    for (const [place, it] of said.entries()) assert.equal(db.days.has(place + 2), it === 'done', `${at} ${said}`);
    const shown = objectsOf(db);
    await db.close();
    assert.equal(files.opened, 0);
    const again = await memory(files);
    assert.equal(objectsOf(again), shown, `stroke ${at}`);
    await again.close();
  }
});

test('writes that go to the disk together: the same bytes as one by one, and all or none where a stroke fails', async () => {
  const work = async (files, together, fails = 0) => {
    const db = await memory(files);
    await db.write((tx) => tx.days.create({ day: 0 }));
    files.failAt = fails;
    const write = (day) => db.write((tx) => tx.days.create({ day, note: 'x'.repeat(day) })).then(() => true, () => false);
    const said = [];
    if (together) said.push(...(await Promise.all([1, 2, 3, 4, 5].map(write))));
    else for (const day of [1, 2, 3, 4, 5]) said.push(await write(day));
    files.failAt = 0;
    const shown = objectsOf(db);
    await db.close();
    const again = await memory(files);
    assert.equal(objectsOf(again), shown);
    assert.deepEqual(said, [1, 2, 3, 4, 5].map((day) => again.days.has(day)));
    await again.close();
    return { said, strokes: files.strokes };
  };
  const [one, other] = [new FailingFiles(), new FailingFiles()];
  const apart = await work(one, false), together = await work(other, true);
  // Uuids and times differ; the records' lengths don't.
  assert.equal(one.files.get('client-1').bytes().length, other.files.get('client-1').bytes().length);
  assert.equal(apart.strokes - together.strokes, 16);
  for (let at = 1; at <= 4; at++) {
    const { said } = await work(new FailingFiles(), true, at);
    assert.ok(said.every((it) => it === said[0]), `${at} ${said}`);
  }
});

test('a disk that is gone for a while: the database goes on once it is back, with what had reached it', async () => {
  // A commit is the record, a sync, its gate, a sync.
  for (const [failAt, days] of [[3, [1, 4]], [4, [1, 2, 4]]]) {
    const net = await server();
    const files = new FailingFiles();
    const db = await online(net, files);
    await db.write((tx) => tx.days.create({ day: 1 }));
    await db.synced();
    files.failAt = failAt;
    files.isGone = true;
    for (const day of [2, 3]) await assert.rejects(db.write((tx) => tx.days.create({ day })), StorageFailed);
    files.isGone = false;
    await db.write((tx) => tx.days.create({ day: 4 }));
    assert.deepEqual(db.days.toArray().map((it) => it.day), days);
    await db.synced();
    assert.equal((await db.stats()).unsent, 0);
    await db.close();
    const again = await memory(files);
    assert.deepEqual(again.days.toArray().map((it) => it.day), days);
    await again.close();
  }
});

test('a disk that is full when a message comes: sync needs attention, says why, and goes on by itself', async () => {
  const net = await server();
  const other = await online(net);
  await other.write((tx) => tx.days.create({ day: 1 }));
  await other.synced();
  const files = new FailingFiles();
  const db = await memory(files);
  let isFull = true;
  net.onMessage = (message) => {
    if (message[0] === Tag.Ask2 && isFull) { files.failAt = 1; isFull = false; } // the first stroke of the reply
    return null;
  };
  const told = [];
  db.observeSync((state) => told.push(state));
  await db.startSync({ transport: net.transport(), ...fast });
  while (db.days.count() === 0) await new Promise((done) => setTimeout(done, 2));
  await db.synced();
  const [problem] = told.filter((it) => it.status === 'attention').map((it) => it.problem);
  assert.equal(problem?.kind, 'storage', told.map((it) => it.status).join());
  assert.match(problem.text, /fails this stroke/);
  await db.close(); await other.close();
});

test('a note that was cut off is none', async () => {
  const net = await server();
  const files = new MemoryFiles();
  let db = await online(net, files);
  await db.synced();
  await db.close();
  await files.open('generation'); // made, and never written
  db = await online(net, files);
  await db.synced();
  await db.close();
});

test('a folder whose database is deleted', async () => {
  const folder = fs.mkdtempSync(path.join(os.tmpdir(), 'realm-'));
  const db = await openDatabase({ folder, schema });
  fs.writeFileSync(path.join(folder, 'mine'), 'x');
  await assert.rejects(deleteDatabase(folder), Busy);
  await db.close();
  await deleteDatabase(folder);
  assert.deepEqual(fs.readdirSync(folder), ['mine']);
  fs.unlinkSync(path.join(folder, 'mine'));
  await (await openDatabase({ folder, schema })).close();
  await deleteDatabase(folder);
  assert.ok(!fs.existsSync(folder));
  await deleteDatabase(folder);
});

test('a folder: one process at a time, and what was answered is there after a kill', async () => {
  const folder = fs.mkdtempSync(path.join(os.tmpdir(), 'realm-'));
  const words = `import { openDatabase, defineSchema, key, text } from ${JSON.stringify(new URL('../dist/node.js', import.meta.url).href)};
    const db = await openDatabase({ folder: ${JSON.stringify(folder)}, schema: defineSchema({ days: { day: key.int(), note: text() } }) });
    for (let day = db.days.count(); ; day++) { await db.write((tx) => tx.days.create({ day, note: 'x'.repeat(day % 50) })); console.log(day); }`;
  let last = -1;
  for (let kill = 0; kill < 8; kill++) {
    const child = spawn(process.execPath, ['--input-type=module', '-e', words], { stdio: ['ignore', 'pipe', 'inherit'] });
    let said = '';
    child.stdout.on('data', (it) => { said += it; });
    while (said.split('\n').length < 20 + kill * 3) await new Promise((done) => setTimeout(done, 3));
    if (kill === 0) await assert.rejects(openDatabase({ folder, schema }), Busy);
    const ended = new Promise((done) => child.once('exit', done));
    child.kill('SIGKILL');
    await ended;
    last = Math.max(last, Number(said.trim().split('\n').filter((it) => /^\d+$/.test(it)).at(-1)));
    const db = await openDatabase({ folder, schema: defineSchema({ days: { day: key.int(), note: text() } }) });
    assert.ok(db.days.count() >= last + 1 && db.days.count() <= last + 3, `${db.days.count()} ${last}`);
    await db.close();
  }
  fs.rmSync(folder, { recursive: true });
});

// ---- encrypted files

const KEY = Uint8Array.from({ length: 32 }, (_, place) => place * 7);

test('an encrypted file holds no text of its objects, and opens with its key alone', async () => {
  const files = new MemoryFiles();
  let db = await openDatabase({ schema, files, encryptionKey: KEY });
  await db.write((tx) => tx.days.create({ day: 1, note: 'a secret that is long enough to be found' }));
  await db.close();
  const bytes = files.files.get('client-1').bytes();
  assert.equal(Buffer.from(bytes).indexOf('secret'), -1);
  assert.equal(Buffer.from(bytes).indexOf('days'), -1);
  await assert.rejects(openDatabase({ schema, files, encryptionKey: KEY.map((it) => it ^ 1) }), WrongKey);
  await assert.rejects(openDatabase({ schema, files }), WrongKey);
  await assert.rejects(openDatabase({ schema, files, encryptionKey: KEY.slice(1) }), /a key has 32 bytes/);
  assert.deepEqual(files.files.get('client-1').bytes(), bytes);
  db = await openDatabase({ schema, files, encryptionKey: KEY });
  assert.equal(db.days.get(1).note, 'a secret that is long enough to be found');
  await db.close();
});

test('a plain file is not opened with a key, and is left as it was', async () => {
  const files = new MemoryFiles();
  const db = await memory(files);
  await db.close();
  const before = files.files.get('client-1').bytes();
  await assert.rejects(openDatabase({ schema, files, encryptionKey: KEY }), BadFile);
  assert.deepEqual(files.files.get('client-1').bytes(), before);
});

/** Where the records of an encrypted file begin, each with its length. */
function recordsOf(file) {
  const records = [];
  for (let gate = 24; file[gate] === 1;) {
    const length = 5 + new DataView(file.buffer).getUint32(gate + 1);
    records.push([gate, length]);
    gate += length;
  }
  return records;
}

test('an encrypted file that was cut opens between two records alone, with the transactions before', async () => {
  const files = new MemoryFiles();
  const db = await openDatabase({ schema, files, encryptionKey: KEY });
  for (let day = 0; day < 4; day++) await db.write((tx) => tx.days.create({ day, note: 'x' }));
  await db.close();
  const whole = files.files.get('client-1').bytes();
  const ends = new Map(recordsOf(whole).map(([gate, length], place) => [gate + length, place + 1]));
  let opened = 0;
  for (const length of [...ends.keys()].flatMap((it) => [it - 7, it, it + 1]).filter((it) => it <= whole.length)) {
    files.files.set('client-1', new FileImage(whole.slice(0, length)));
    const again = await openDatabase({ schema, files, encryptionKey: KEY }).catch((error) => error);
    const count = ends.get(length) ?? null;
    if (count === null && length !== whole.length) assert.ok(again instanceof BadFile, `${length}`);
    else {
      opened += 1;
      const transactions = ends.size - 4;
      assert.equal(again.days.count(), count === null ? 4 : Math.max(0, count - transactions), `${length}`);
      await again.close();
    }
  }
  assert.equal(opened, ends.size + 1);
});

test('an encrypted file of which a byte is changed, or two records changed places, is refused', async () => {
  const files = new MemoryFiles();
  const db = await openDatabase({ schema, files, encryptionKey: KEY });
  for (let day = 0; day < 3; day++) await db.write((tx) => tx.days.create({ day, note: 'x' }));
  await db.close();
  const whole = files.files.get('client-1').bytes();
  const refused = async (bytes) => {
    files.files.set('client-1', new FileImage(bytes));
    await assert.rejects(openDatabase({ schema, files, encryptionKey: KEY }), (error) => error instanceof BadFile || error instanceof WrongKey);
  };
  for (let at = 30; at < whole.length - 1; at += 29) await refused(whole.map((it, place) => (place === at ? it ^ 4 : it)));
  await refused(whole.map((it, place) => (place === 24 ? 0 : it))); // the first gate is closed, and records stand behind it
  // The records of two transactions are as long as each other.
  const records = recordsOf(whole);
  const [[one, length], [other, same]] = records.slice(-2);
  assert.equal(length, same);
  const swapped = whole.slice();
  swapped.set(whole.subarray(other, other + length), one);
  swapped.set(whole.subarray(one, one + length), other);
  await refused(swapped);
});

test('an encrypted storage that fails at each stroke loses nothing that was answered', async () => {
  for (let at = 1; at <= 8; at++) {
    const files = new FailingFiles();
    const db = await openDatabase({ schema, files, encryptionKey: KEY });
    await db.write((tx) => tx.days.create({ day: 1, note: 'before' }));
    files.failAt = at;
    const said = [];
    for (let day = 2; day < 5; day++) said.push(await db.write((tx) => tx.days.create({ day })).then(() => 'done', (error) => error.constructor.name));
    assert.ok(said.every((it) => it === 'done' || it === 'StorageFull'), said.join());
    const shown = objectsOf(db);
    await db.close();
    assert.equal(files.opened, 0);
    const again = await openDatabase({ schema, files, encryptionKey: KEY });
    assert.equal(objectsOf(again), shown, `stroke ${at}`);
    await again.close();
  }
});
