import assert from 'node:assert/strict';
import { createRequire } from 'node:module';
import net from 'node:net';
import test from 'node:test';
import { HttpTransport, MemoryFiles, NeedsAttention, WebSocketTransport, openDatabase } from '../dist/node.js';
import { fast, schema } from './common.mjs';
import { startServer } from './server.mjs';

const { WebSocket } = createRequire(import.meta.url)('/usr/share/nodejs/ws');
const open = (transport) => openDatabase({ schema, sync: { transport, ...fast } });
const both = (server, token) => [new HttpTransport(server.url, token), new WebSocketTransport(server.socketUrl, token, WebSocket)];

test('two devices agree and hear of each other, by HTTP and by a WebSocket', async () => {
  const server = await startServer();
  const [one, other] = await Promise.all(both(server, 'good').map(open));
  await one.synced(); await other.synced();
  for (const [day, [writer, reader]] of [[one, other], [other, one]].entries()) {
    const heard = new Promise((done) => reader.days.where({ day }).observe((rows) => rows.length && done()));
    await writer.write((tx) => tx.days.create({ day }));
    await heard;
  }
  await one.close(); await other.close(); await server.close();
});

test('a wrong token needs attention until it is renewed', async () => {
  const server = await startServer();
  for (const transport of both(server, 'refused')) {
    const db = await open(transport);
    await assert.rejects(db.synced(), (error) => error instanceof NeedsAttention && error.problem.kind === 'unauthorized');
    await db.renewToken('good');
    await db.synced();
    await db.close();
  }
  await server.close();
});

test('a source of tokens is asked for another one, once', async () => {
  const server = await startServer();
  for (const kind of [(token) => new HttpTransport(server.url, token), (token) => new WebSocketTransport(server.socketUrl, token, WebSocket)]) {
    const asked = [];
    const db = await open(kind((wasRefused) => { asked.push(wasRefused); return wasRefused ? 'good' : 'refused'; }));
    await db.synced();
    await db.write((tx) => tx.days.create({ day: asked.length }));
    await db.synced();
    assert.deepEqual(asked, [false, true]);
    await db.close();
    const never = await open(kind(async () => 'refused'));
    await assert.rejects(never.synced(), NeedsAttention);
    await never.close();
  }
  await server.close();
});

test('a source of tokens that fails is asked again: the database is offline meanwhile', async () => {
  const server = await startServer();
  globalThis.WebSocket ??= WebSocket;
  for (const url of [server.url, server.socketUrl]) {
    let fails = 3;
    const states = [];
    const db = await openDatabase({ schema, sync: { url, token: () => { if (fails-- > 0) throw new Error('no network'); return 'good'; }, ...fast } });
    db.observeSync(({ status }) => states.push(status));
    await db.synced();
    assert.ok(states.includes('offline') && !states.includes('attention'), states.join());
    await db.close();
  }
  await server.close();
});

test('a server that never answers a connection: it is given up in time, and nothing is left open', async () => {
  const sockets = new Set();
  const silent = net.createServer((it) => { sockets.add(it); it.on('close', () => sockets.delete(it)); it.on('error', () => {}); it.resume(); });
  await new Promise((done) => silent.listen(0, '127.0.0.1', done));
  const transport = new WebSocketTransport(`ws://127.0.0.1:${silent.address().port}/v1/histories/x`, 'good', WebSocket);
  const db = await openDatabase({ schema, sync: { transport, ...fast, timeout: 30 } });
  while (db.syncState.status !== 'offline') await new Promise((done) => setTimeout(done, 2));
  assert.match(db.syncState.reason, /no connection came about in time/);
  await db.close();
  while (sockets.size > 0) await new Promise((done) => setTimeout(done, 2));
  silent.close();
});

test('the token of a database by address, and one renewed on an open socket', async () => {
  const server = await startServer();
  globalThis.WebSocket ??= WebSocket;
  const db = await openDatabase({ schema, sync: { url: server.socketUrl, token: async (wasRefused) => (wasRefused ? 'good' : 'refused'), ...fast } });
  await db.synced();
  await db.renewToken('next');
  while (server.renewed.length === 0) await new Promise((done) => setTimeout(done, 2));
  assert.deepEqual(server.renewed, ['next']);
  await db.close(); await server.close();
});

test('a connection that is lost is made again, and replies that are lost are asked for again', async () => {
  const server = await startServer();
  server.loseEach = 3;
  const db = await open(new WebSocketTransport(server.socketUrl, 'good', WebSocket));
  for (let day = 0; day < 10; day++) {
    await db.write((tx) => tx.days.create({ day }));
    if (day % 3 === 0) for (const it of server.sockets) it.terminate();
    await db.synced();
  }
  assert.equal((await db.stats()).unsent, 0);
  server.down(true);
  await db.write((tx) => tx.days.create({ day: 99 }));
  while (db.syncState.status !== 'offline') await new Promise((done) => setTimeout(done, 2));
  server.down(false);
  await db.synced();
  await db.close(); await server.close();
});

test('a history that was restored on the server: a new device begins in its generation, and another one asks, and keeps what is unsent', async () => {
  for (const way of [0, 1]) {
    const server = await startServer();
    const files = new MemoryFiles();
    let db = await openDatabase({ schema, files, sync: { transport: both(server, 'good')[way], ...fast } });
    await db.write((tx) => tx.days.create({ day: 1 }));
    await db.synced();
    await db.stopSync();
    const id = await db.write((tx) => tx.items.create({ quantity: 1 }));
    // It reached the history before that was restored, and nobody told the device.
    await server.node.take(db.link.host.engine.ask('U', Uint8Array.of((await db.stats()).last - 1, 0, 0, 0)));
    await db.write((tx) => tx.days.create({ day: 2 }));
    await db.write((tx) => tx.items.at(id).quantity.add(4));
    server.generation = 3;
    for (const it of server.sockets) it.terminate();
    const fresh = await openDatabase({ schema, sync: { transport: both(server, 'good')[way], ...fast } });
    await fresh.synced();
    await db.startSync({ transport: both(server, 'good')[way], ...fast });
    await assert.rejects(db.synced(), /the history was restored on the server and is of generation 3/);
    assert.equal(db.syncState.problem.kind, 'otherServer');
    const recovered = new Promise((done) => db.onRecovered(done));
    await db.recover();
    const { saved, integrated, dropped } = await recovered;
    assert.deepEqual([saved, integrated, dropped], [2, 1, []]);
    await db.synced();
    await db.close();
    db = await openDatabase({ schema, files, sync: { transport: both(server, 'good')[way], ...fast } });
    await db.synced();
    assert.deepEqual(db.days.toArray().map((it) => it.day), [1, 2]);
    assert.equal(db.items.get(id).quantity, 5);
    assert.deepEqual((await files.names()).sort(), ['client-2', 'generation', 'kept-1']);
    await db.close(); await fresh.close(); await server.close();
  }
});
