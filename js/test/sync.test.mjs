import assert from 'node:assert/strict';
import test from 'node:test';
import { Database, Endless, Host, LocalLink, MemoryFiles, loadModule, openDatabase, optionsOf } from '../dist/node.js';
import { Tag } from '../dist/messages.js';
import { draws, fast, objectsOf, online, randomEdits, schema, server } from './common.mjs';

test('three devices that go offline agree, where replies are lost', async () => {
  const net = await server();
  net.loseEach = 7;
  const dbs = await Promise.all([1, 2, 3].map(() => online(net)));
  const draw = draws(3);
  const ids = Array.from({ length: 6 }, () => crypto.randomUUID());
  let added = 0;
  for (let round = 0; round < 15; round++) {
    net.isDown = round % 3 !== 0;
    for (const db of dbs) {
      for (let turn = 0; turn < 10; turn++) await db.write((tx) => randomEdits(tx, draw, ids));
      await db.write((tx) => { if (!tx.days.has(1)) tx.days.create({ day: 1 }); tx.words.create({ word: `w${draw(1e9)}` }); });
      added += 1;
    }
  }
  net.isDown = false;
  for (let again = 0; again < 2; again++) for (const db of dbs) await db.synced();
  assert.equal(objectsOf(dbs[0]), objectsOf(dbs[1]));
  assert.equal(objectsOf(dbs[0]), objectsOf(dbs[2]));
  assert.equal(dbs[0].words.count(), added);
  for (const db of dbs) await db.close();
});

test('others hear of a change by themselves, and states are told', async () => {
  const net = await server();
  const [one, other] = [await online(net), await online(net)];
  await one.synced(); await other.synced();
  const states = [];
  one.observeSync((it) => states.push(it.status));
  const heard = new Promise((done) => other.days.observe((rows) => rows.length && done(rows[0])));
  await one.write((tx) => tx.days.create({ day: 5, note: 'new' }));
  assert.equal((await heard).note, 'new');
  net.isDown = true;
  await one.write((tx) => tx.days.create({ day: 6 }));
  while (one.syncState.status !== 'offline') await new Promise((done) => setTimeout(done, 5));
  net.isDown = false;
  await one.synced();
  assert.ok(states.includes('syncing') && states.includes('offline') && states.at(-1) === 'upToDate', states.join());
  await one.close(); await other.close();
});

test('an own change that comes back draws nothing anew', async () => {
  const net = await server();
  const db = await online(net);
  await db.synced();
  let calls = 0;
  db.days.observe(() => calls++);
  await db.write((tx) => tx.days.create({ day: 1, note: 'x' }));
  const row = db.days.get(1);
  await db.synced();
  assert.equal(calls, 2);
  assert.equal(db.days.get(1), row);
  await db.close();
});

test('two tabs over one host: read, change and write never loses', async () => {
  const host = await Host.start(loadModule(), new MemoryFiles());
  const shared = () => { const link = new LocalLink(host, optionsOf); link.close = async () => {}; return Database.open(schema, link); };
  const [one, other] = [await shared(), await shared()];
  await one.write((tx) => tx.days.create({ day: 1, note: '0' }));
  const add = (db) => db.write((tx) => tx.days.update(1, { note: String(Number(tx.days.get(1).note) + 1) }));
  await Promise.all([...Array(200)].flatMap((_, i) => [add(one), i % 3 ? add(other) : null].filter(Boolean)));
  assert.equal(one.days.get(1).note, String(200 + 133));
  assert.equal(objectsOf(one), objectsOf(other));
  await host.close();
});


test('a client asks before it sends: after each opening, and after each refusal', async () => {
  const net = await server();
  const sent = [];
  net.onMessage = (message) => { sent.push(message[0]); return null; };
  const files = new MemoryFiles();
  let db = await online(net, files);
  await db.write((tx) => tx.days.create({ day: 1 }));
  await db.synced();
  assert.equal(sent[0], Tag.Bind);
  assert.equal(sent[1], Tag.Ask2);
  assert.ok(sent.indexOf(Tag.Upload) > 1);
  await db.stopSync();
  await db.write((tx) => tx.days.create({ day: 2 }));
  await db.close();
  sent.length = 0;
  db = await online(net, files);
  await db.synced();
  assert.equal(sent[0], Tag.Ask2);
  assert.ok(sent.includes(Tag.Upload));
  // A refusal to an Upload: the next message is a question.
  sent.length = 0;
  let isRefused = false;
  const { ident } = await db.stats();
  net.onMessage = (message) => {
    sent.push(message[0]);
    if (message[0] !== Tag.Upload || isRefused) return null;
    isRefused = true;
    return Uint8Array.of(Tag.Refused, ident, 3, 2, 0);
  };
  await db.write((tx) => tx.days.create({ day: 3 }));
  await db.synced();
  assert.deepEqual(sent.slice(0, 3), [Tag.Upload, Tag.Ask2, Tag.Upload]);
  await db.close();
});

test('a server that never comes to the end is an error, and is tried again', async () => {
  const net = await server();
  const filler = await online(net);
  await filler.synced();
  await filler.close();
  const db = await openDatabase({ schema });
  // It stores what is sent, and never gives it back.
  net.onMessage = (message) => (message[0] === Tag.Ask2 ? Uint8Array.of(Tag.Download, message[1], message[2], 0) : null);
  await db.startSync({ transport: net.transport(), ...fast });
  while (db.syncState.status !== 'offline') await new Promise((done) => setTimeout(done, 2));
  assert.match(db.syncState.reason, /didn't reach the end of the history in \d+ messages/);
  net.onMessage = null;
  await db.synced();
  assert.equal((await db.stats()).unsent, 0);
  await db.close();
  assert.equal(new Endless('x').name, 'Endless');
});

test('a server that answers what is no message, or a broken one: it is tried again, and nothing is lost', async () => {
  const net = await server();
  const other = await online(net);
  await other.write((tx) => tx.days.create({ day: 1, note: 'other' }));
  await other.synced();
  const db = await openDatabase({ schema });
  await db.write((tx) => tx.days.create({ day: 2 }));
  const draw = draws(5);
  let broken = 0;
  net.onMessage = () => null;
  const transport = net.transport();
  const breaking = { exchange: async (message) => {
    const reply = (await transport.exchange(message)).slice();
    if (broken >= 60) return reply;
    broken += 1;
    if (broken % 3 === 0) return reply.subarray(0, draw(reply.length));
    return broken % 3 === 1 ? Uint8Array.of(Tag.Download, message[1], 0, 255, 255, 255, 127) : Uint8Array.of(...reply, draw(256));
  } };
  await db.startSync({ transport: breaking, ...fast, retryMost: 5, onProblem: 'ask' });
  while (broken < 60 && db.syncState.status !== 'attention') await new Promise((done) => setTimeout(done, 5));
  broken = 60;
  if (db.syncState.status === 'attention') await db.startSync({ transport, ...fast });
  await db.synced();
  assert.deepEqual(db.days.toArray().map((it) => it.day), [1, 2]);
  await db.close(); await other.close();
});

test('a new device takes a history that is longer than one reply', async () => {
  const net = await server();
  const one = await online(net);
  for (let at = 0; at < 5000; at += 1000) {
    await Promise.all(Array.from({ length: 1000 }, (_, i) => one.write((tx) => tx.days.create({ day: at + i }))));
  }
  await one.synced();
  const other = await online(net);
  await other.synced();
  assert.equal(other.days.count(), 5000);
  await one.close(); await other.close();
});

test('what this device wrote and another one overruled is told, once, with what is there now', async () => {
  const net = await server();
  const [one, other] = [await online(net), await online(net)];
  const id = await one.write((tx) => tx.items.create({ title: 'bread', tags: ['a'], steps: ['x'], prices: { k: 1 }, quantity: 1 }));
  const [gone, mine] = await one.write((tx) => [tx.items.create({ title: 'gone' }), tx.items.create({ title: 'mine' })]);
  await one.synced(); await other.synced();
  await one.stopSync();
  const told = [];
  one.onLost((lost) => told.push(...lost));
  await one.write((tx) => { tx.items.update(id, { title: 'white bread', done: true }); tx.items.at(id).prices.set('k', 2); tx.items.at(id).quantity.add(1); });
  await one.write((tx) => { tx.items.update(gone, { title: 'still here?' }); tx.items.update(mine, { title: 'stays' }); });
  await new Promise((done) => setTimeout(done, 5));
  await other.write((tx) => {
    tx.items.update(id, { title: 'rye bread' });
    tx.items.at(id).prices.set('k', 3);
    tx.items.at(id).quantity.add(5);
    tx.items.erase(gone);
  });
  await other.synced(); // the other device's changes come first in the history
  await one.startSync({ transport: net.transport(), ...fast });
  await one.synced(); await one.synced();
  const said = told.map(({ key, column, why, mine: value }) => [key === id ? 'bread' : key === gone ? 'gone' : 'other', column, why, value]);
  assert.deepEqual(said, [['bread', 'title', 'overwritten', 'white bread'], ['bread', 'prices', 'overwritten', 2], ['gone', null, 'erased', null]]);
  assert.equal(told[0].object.title, 'rye bread');
  assert.equal(told[0].object.quantity, 7);
  assert.ok(told[0].at instanceof Date);
  assert.equal(told[2].object, undefined);
  assert.equal(told[2].before.title, 'still here?');
  await one.close(); await other.close();
});
