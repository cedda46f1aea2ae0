import assert from 'node:assert/strict';
import test from 'node:test';
import { FileImage, MemoryFiles, NeedsAttention, SchemaConflict, bool, defineSchema, int, key, openDatabase, text } from '../dist/node.js';
import { Tag } from '../dist/messages.js';
import { FailingFiles, fast, memory, online, plain, server } from './common.mjs';

test('schemas that differ are told before anything is sent, and a new client saves what it can', async () => {
  const net = await server();
  const a = defineSchema({ notes: { id: key.int(), text: text(), due: int() } });
  const b = defineSchema({ notes: { id: key.int(), text: text(), due: bool() } });
  const phone = await openDatabase({ schema: a, sync: { transport: net.transport(), ...fast } });
  await phone.write((tx) => tx.notes.create({ id: 1, text: 'phone' }));
  await phone.synced();
  const files = new MemoryFiles();
  const laptop = await openDatabase({ schema: b, files });
  await laptop.write((tx) => tx.notes.create({ id: 2, text: 'laptop', due: true }));
  await laptop.startSync({ transport: net.transport(), ...fast });
  const sent = [];
  net.onMessage = (message) => { sent.push(message[0]); return null; };
  await assert.rejects(laptop.synced(), (error) => error instanceof SchemaConflict && error.table === 'notes' && error.column === 'due'
    && error.declared === 'Bool One' && error.found === 'Int One');
  assert.ok(!sent.includes(Tag.Upload));
  assert.equal(laptop.syncState.status, 'attention');
  assert.equal(laptop.syncState.problem.kind, 'schema');
  const told = new Promise((done) => laptop.onRecovered(done));
  await laptop.recover();
  const recovery = await told;
  assert.equal(recovery.saved, 2);
  assert.deepEqual(recovery.dropped.map((it) => [it.number, JSON.parse(it.edit).op, JSON.parse(it.edit).column, it.why.replace(/.*: /, '')]), [
    [1, 'AddTable', undefined, 'the table exists'], [1, 'AddColumn', 'text', 'the column exists'], [1, 'AddColumn', 'due', 'the column exists'],
    [2, 'Update', 'due', "the value doesn't fit the column"],
  ]);
  await laptop.close();
  const again = await openDatabase({ schema: a, files, sync: { transport: net.transport(), ...fast } });
  await again.synced();
  assert.deepEqual(again.notes.toArray().map((it) => it.text), ['phone', 'laptop']);
  assert.deepEqual(await files.names(), ['client-2']);
  await phone.synced();
  assert.equal(plain(phone.notes.toArray()), plain(again.notes.toArray()));
  await phone.close(); await again.close();
});

test('a file that was restored from a backup: a new client takes over by itself', async () => {
  const net = await server();
  const files = new MemoryFiles();
  let db = await online(net, files);
  await db.write((tx) => tx.days.create({ day: 1, note: 'first' }));
  await db.synced();
  const backup = files.files.get('client-1').bytes();
  await db.write((tx) => tx.days.create({ day: 2, note: 'second' }));
  await db.write((tx) => tx.days.create({ day: 3, note: 'third' }));
  await db.synced();
  await db.close();
  files.files.set('client-1', new FileImage(backup));
  db = await memory(files);
  await db.write((tx) => tx.days.create({ day: 4, note: 'after the backup' }));
  const told = new Promise((done) => db.onRecovered(done));
  await db.startSync({ transport: net.transport(), ...fast });
  const recovery = await told;
  assert.deepEqual([recovery.saved, recovery.integrated, recovery.dropped], [1, 0, []]);
  await db.synced();
  assert.deepEqual(db.days.toArray().map((it) => it.note), ['first', 'second', 'third', 'after the backup']);
  await db.close();
});

test('a list that became shorter meanwhile: the new client keeps what is unsent of it, at another place', async () => {
  const net = await server();
  const files = new MemoryFiles();
  let db = await online(net, files);
  const id = await db.write((tx) => tx.items.create({ title: 'Pasta', steps: ['boil', 'salt'] }));
  await db.synced();
  const backup = files.files.get('client-1').bytes();
  await db.write((tx) => tx.items.at(id).steps.remove(0));
  await db.synced();
  await db.close();
  files.files.set('client-1', new FileImage(backup));
  db = await memory(files);
  await db.write((tx) => tx.items.at(id).steps.push('serve'));
  const told = new Promise((done) => db.onRecovered(done));
  await db.startSync({ transport: net.transport(), ...fast });
  const recovery = await told;
  assert.deepEqual([recovery.saved, recovery.dropped], [1, []]);
  await db.synced();
  assert.deepEqual(db.items.get(id).steps, ['salt', 'serve']);
  await db.close();
});

test('an ident that was retired: a new client takes over by itself, cut off at each message', async () => {
  for (let cut = 1; cut < 14; cut++) {
    const net = await server();
    const files = new MemoryFiles();
    let db = await online(net, files);
    await db.write((tx) => tx.days.create({ day: 1 }));
    await db.synced();
    const { ident } = await db.stats();
    await db.stopSync();
    await db.write((tx) => tx.days.create({ day: 2, note: 'unsent' }));
    await db.write((tx) => tx.days.update(2, { note: 'unsent too' }));
    const other = await online(net);
    await other.synced();
    // Somebody retires it for the heir to come: here nobody did, so the server is asked by hand for an ident of its own.
    net.onMessage = (message) => (message[0] === 3 && message[1] === ident ? Uint8Array.of(6, ident, 2, 68, 1) : null);
    let count = 0;
    const transport = net.transport();
    const cutting = { ...transport, exchange: async (message) => { if (++count === cut) throw new Error('cut'); return transport.exchange(message); } };
    const told = new Promise((done) => db.onRecovered(done));
    await db.startSync({ transport: cutting, ...fast });
    const recovery = await told;
    assert.equal(recovery.saved, 2, `cut ${cut}`);
    assert.equal(recovery.problem.kind, 'retired');
    await db.synced();
    await other.synced();
    assert.equal(plain(db.days.toArray()), plain(other.days.toArray()));
    assert.equal(db.days.get(2).note, 'unsent too');
    await db.close(); await other.close();
  }
});

/** A database that was synced, restored from a backup of its file, and has three changes more. */
async function restored(net, files = new MemoryFiles()) {
  let db = await online(net, files);
  await db.write((tx) => tx.days.create({ day: 1, note: 'first' }));
  await db.synced();
  const backup = files.files.get('client-1').bytes();
  for (const day of [2, 3]) await db.write((tx) => tx.days.create({ day, note: 'lost file' }));
  await db.synced();
  await db.close();
  files.files.set('client-1', new FileImage(backup));
  db = await memory(files);
  for (const day of [4, 5, 6]) await db.write((tx) => tx.days.create({ day, note: 'restored file' }));
  return db;
}

test('a restored file that is only asked about: it needs attention, and sends nothing, also when more is written', async () => {
  const net = await server();
  const db = await restored(net);
  const sent = [];
  net.onMessage = (message) => { sent.push(message[0]); return null; };
  await db.startSync({ transport: net.transport(), ...fast, onProblem: 'ask' });
  await assert.rejects(db.synced(), /needs attention: the history has a change 3 of this device/);
  assert.equal(db.syncState.problem.kind, 'restored');
  await db.write((tx) => tx.days.create({ day: 7 }));
  await assert.rejects(db.synced(), /needs attention/);
  assert.ok(!sent.includes(Tag.Upload), sent.join());
  await db.recover();
  await db.synced();
  assert.deepEqual(db.days.toArray().map((it) => it.day), [1, 2, 3, 4, 5, 6, 7]);
  await db.close();
});

test('a Stored of a change that the file does not have is a restored file', async () => {
  const net = await server();
  const db = await online(net);
  await db.write((tx) => tx.days.create({ day: 1 }));
  await db.synced();
  const { ident, last } = await db.stats();
  await db.stopSync();
  await db.write((tx) => tx.days.create({ day: 2 }));
  net.onMessage = (message) => (message[0] === Tag.Upload && message[1] === ident ? Uint8Array.of(Tag.Stored, ident, last + 5) : null);
  await db.startSync({ transport: net.transport(), ...fast, onProblem: 'ask' });
  await assert.rejects(db.synced(), /needs attention/);
  assert.equal(db.syncState.problem.kind, 'restored');
  await db.close();
});

test('another server is never taken for this one: a person decides, and the old file is kept', async () => {
  const [home, work] = [await server(), await server()];
  const files = new MemoryFiles();
  const db = await online(home, files);
  for (const day of [1, 2, 3]) await db.write((tx) => tx.days.create({ day, note: 'home' }));
  await db.synced();
  await db.stopSync();
  await db.write((tx) => tx.days.create({ day: 4, note: 'home, unsent' }));
  await db.startSync({ transport: work.transport(), ...fast });
  await assert.rejects(db.synced(), /needs attention/);
  assert.equal(db.syncState.problem.kind, 'otherServer');
  assert.equal(work.node.length, 0);
  const before = files.files.get('client-1').bytes();
  await db.recover();
  await db.synced();
  assert.deepEqual(db.days.toArray().map((it) => it.note), ['home, unsent']);
  assert.deepEqual(await files.names(), ['client-2', 'kept-1']);
  assert.deepEqual(files.files.get('kept-1').bytes(), before);
  await db.close();
});

test('a takeover that was cut off at another server is begun anew, and not gone on with by itself', async () => {
  const [net, other] = [await server(), await server()];
  const files = new MemoryFiles();
  let db = await online(net, files);
  await db.write((tx) => tx.days.create({ day: 1 }));
  await db.synced();
  await db.stopSync();
  await db.write((tx) => tx.days.create({ day: 2 }));
  let count = 0;
  const transport = other.transport();
  const cutting = { exchange: async (message) => { if (++count > 2) throw new Error('cut'); return transport.exchange(message); } };
  await db.startSync({ transport: cutting, ...fast });
  await assert.rejects(db.synced(), /attention|stopped/);
  await db.recover().catch(() => {});
  await db.close();
  assert.deepEqual((await files.names()).sort(), ['client-1', 'client-2', 'reason-2']);
  // At home again all is well, and nothing takes over.
  db = await online(net, files);
  await db.synced();
  assert.deepEqual(db.days.toArray().map((it) => it.day), [1, 2]);
  await db.stopSync();
  await db.startSync({ transport: other.transport(), ...fast });
  await assert.rejects(db.synced(), /attention/);
  await db.recover();
  await db.synced();
  assert.deepEqual((await files.names()).sort(), ['client-2', 'kept-1']);
  await db.close();
});

test('a takeover that was cut off goes on after the next opening, and a new client that is refused is given up', async () => {
  for (let cut = 2; cut < 6; cut++) {
    const net = await server();
    const files = new MemoryFiles();
    let db = await online(net, files);
    await db.write((tx) => tx.days.create({ day: 1 }));
    await db.synced();
    const { ident } = await db.stats();
    await db.stopSync();
    await db.write((tx) => tx.days.create({ day: 2, note: 'unsent' }));
    net.onMessage = (message) => (message[0] === Tag.Upload && message[1] === ident ? Uint8Array.of(Tag.Refused, ident, 2, 68, 1) : null);
    let count = 0;
    const transport = net.transport();
    const cutting = { exchange: async (message) => { if (++count > cut) throw new Error('cut'); return transport.exchange(message); } };
    await db.startSync({ transport: cutting, ...fast });
    while (count <= cut) await new Promise((done) => setTimeout(done, 2));
    await db.close();
    db = await memory(files);
    const told = new Promise((done) => db.onRecovered(done));
    await db.startSync({ transport, ...fast });
    assert.equal((await told).saved, 1, `cut ${cut}`);
    await db.synced();
    assert.deepEqual(db.days.toArray().map((it) => it.note), ['', 'unsent']);
    await db.close();
  }
  const net = await server();
  const files = new MemoryFiles();
  const db = await online(net, files);
  await db.write((tx) => tx.days.create({ day: 1 }));
  await db.synced();
  net.onMessage = (message) => (message[0] === Tag.Ask2 && message[1] !== 1 ? Uint8Array.of(Tag.Refused, message[1], 0, 71, 9) : null);
  await assert.rejects(db.recover(), /gave up the history/);
  assert.deepEqual(await files.names(), ['client-1']);
  await db.close();
});

test('a client that never got an ident is not given up, since its changes could not be handed over', async () => {
  const net = await server();
  net.isDown = true;
  const files = new MemoryFiles();
  const db = await online(net, files);
  await db.write((tx) => tx.days.create({ day: 1 }));
  await assert.rejects(db.recover(), /has no ident yet/);
  assert.deepEqual(await files.names(), ['client-1']);
  net.isDown = false;
  await db.synced();
  assert.equal(db.days.count(), 1);
  await db.close();
});

test('two copies of a restored file: each keeps its own work, and what both have is saved once', async () => {
  const net = await server();
  const files = new MemoryFiles();
  let db = await online(net, files);
  await db.write((tx) => { tx.items.create({ id: '00000000-0000-4000-8000-000000000001', quantity: 1 }); tx.days.create({ day: 1 }); });
  await db.synced();
  const backup = files.files.get('client-1').bytes();
  await db.write((tx) => tx.days.create({ day: 2, note: 'lost file' }));
  await db.synced();
  await db.close();
  // Restored: one change is made, and then the file is copied.
  files.files.set('client-1', new FileImage(backup));
  db = await memory(files);
  await db.write((tx) => tx.items.at('00000000-0000-4000-8000-000000000001').quantity.add(10));
  await db.close();
  const copies = [0, 1].map(() => { const it = new MemoryFiles(); it.files.set('client-1', new FileImage(files.files.get('client-1').bytes())); return it; });
  const dbs = [];
  for (const [place, copy] of copies.entries()) {
    const it = await memory(copy);
    await it.write((tx) => tx.days.create({ day: 10 + place, note: `copy ${place}` }));
    const told = new Promise((done) => it.onRecovered(done));
    await it.startSync({ transport: net.transport(), ...fast });
    const { saved, integrated } = await told;
    assert.deepEqual([saved, integrated], place === 0 ? [2, 0] : [1, 1]);
    await it.synced();
    dbs.push(it);
  }
  for (const it of [...dbs, ...dbs]) await it.synced();
  for (const it of dbs) {
    assert.deepEqual(it.days.toArray().map(({ day }) => day), [1, 2, 10, 11]);
    assert.equal(it.items.get('00000000-0000-4000-8000-000000000001').quantity, 11);
    await it.close();
  }
});

test('a takeover that ended at any stroke of its disk goes on after the next opening, and saves each change once', async () => {
  for (let cut = 1, isWhole = false; !isWhole; cut++) {
    const net = await server();
    const files = new FailingFiles();
    let db = await restored(net, files);
    const id = await db.write((tx) => tx.items.create({ quantity: 1 }));
    await db.write((tx) => tx.items.at(id).quantity.add(10));
    files.failAt = cut;
    await db.startSync({ transport: net.transport(), ...fast });
    await db.synced().catch(() => {});
    isWhole = files.failAt > 0;
    files.failAt = 0;
    await db.close();
    assert.equal(files.opened, 0, `stroke ${cut}`);
    db = await online(net, files);
    await db.synced();
    assert.deepEqual(db.days.toArray().map((it) => it.day), [1, 2, 3, 4, 5, 6], `stroke ${cut}`);
    assert.equal(db.items.get(id).quantity, 11, `stroke ${cut}`);
    await db.close();
  }
});

test('a takeover that ended at any stroke, of a copy whose other one was there first, leaves nothing out', async () => {
  for (let cut = 1, isWhole = false; !isWhole; cut++) {
    const net = await server();
    const files = new FailingFiles(), copied = new MemoryFiles();
    let db = await restored(net, files);
    await db.close();
    copied.files.set('client-1', new FileImage(files.files.get('client-1').bytes()));
    // The other one takes the place first, and sends its changes last.
    const other = await memory(copied);
    await other.write((tx) => tx.days.create({ day: 10 }));
    const transport = net.transport();
    const asking = { exchange: async (message) => { if (message[0] === Tag.Upload) throw new Error('cut'); return transport.exchange(message); } };
    const told = new Promise((done) => other.onRecovered(done));
    await other.startSync({ transport: asking, ...fast });
    await told;
    db = await memory(files);
    await db.write((tx) => tx.days.create({ day: 11 }));
    files.failAt = cut;
    db.onRecovered(() => { isWhole = true; });
    await db.startSync({ transport: asking, ...fast });
    while (!isWhole && files.failAt > 0) await new Promise((done) => setTimeout(done, 2));
    files.failAt = 0;
    await db.close();
    await other.stopSync();
    await other.startSync({ transport, ...fast });
    await other.synced();
    await other.close();
    db = await memory(files);
    await db.write((tx) => tx.days.create({ day: 12 }));
    await db.startSync({ transport, ...fast });
    await db.synced();
    assert.deepEqual(db.days.toArray().map((it) => it.day), [1, 2, 3, 4, 5, 6, 10, 11, 12], `stroke ${cut}`);
    await db.close();
  }
});

test('a database that is closed in the middle of a takeover leaves its files alone, also when an answer comes late', async () => {
  for (const tag of [Tag.Bind, Tag.Ask2, Tag.Retire]) {
    const net = await server();
    const files = new FailingFiles();
    let db = await restored(net, files);
    const transport = net.transport();
    let answer = null;
    const waiting = (message) => new Promise((done) => { answer = () => done(transport.exchange(message)); });
    const slow = { exchange: (message) => (message[0] === tag && files.opened > 1 ? waiting(message) : transport.exchange(message)) };
    await db.startSync({ transport: slow, ...fast });
    while (!answer) await new Promise((done) => setTimeout(done, 2));
    await db.close();
    assert.equal(files.opened, 0);
    const before = files.strokes;
    answer();
    await new Promise((done) => setTimeout(done, 20));
    assert.equal(files.strokes, before);
    db = await online(net, files);
    await db.synced();
    assert.deepEqual(db.days.toArray().map((it) => it.day), [1, 2, 3, 4, 5, 6]);
    await db.close();
  }
});

test('a problem that no new client settles is no reason for one', async () => {
  const net = await server();
  const files = new MemoryFiles();
  const db = await online(net, files);
  await db.write((tx) => tx.days.create({ day: 1 }));
  await db.synced();
  net.onMessage = (message) => (message[0] === Tag.Upload ? Uint8Array.of(Tag.Refused, message[1], 2, 64, 1) : null);
  await db.write((tx) => tx.days.create({ day: 2 }));
  await assert.rejects(db.synced(), (error) => error instanceof NeedsAttention && error.problem.kind === 'full');
  await assert.rejects(db.recover(), (error) => error instanceof NeedsAttention && error.problem.kind === 'full');
  assert.deepEqual(await files.names(), ['client-1']);
  await db.close();
});

test('a takeover that settles nothing is not tried again and again', async () => {
  const net = await server();
  const db = await online(net);
  await db.write((tx) => tx.days.create({ day: 1 }));
  await db.synced();
  net.onMessage = (message) => (message[0] === Tag.Upload ? Uint8Array.of(Tag.Refused, message[1], 2, 68, 1) : null);
  let recoveries = 0;
  db.onRecovered(() => { recoveries += 1; });
  await db.write((tx) => tx.days.create({ day: 2 }));
  await assert.rejects(db.synced(), /needs attention/);
  assert.equal(recoveries, 1);
  net.onMessage = null;
  await db.recover();
  await db.synced();
  assert.equal(db.days.count(), 2);
  await db.close();
});
