#!/usr/bin/env node
// A server for tests and for work on the demo: the files of the repository, and one history over HTTP and WebSocket, as the service of this
// repository answers. A device is its token; any token but `refused` is taken. Nobody is authenticated: not for the network.
//
//     node js/test/server.mjs [--port 8123] [--folder FOLDER]
import fs from 'node:fs';
import http from 'node:http';
import { createRequire } from 'node:module';
import path from 'node:path';
import { fileURLToPath } from 'node:url';
import { MemoryFiles, NodeFiles, ServerNode } from '../dist/node.js';

const { WebSocketServer } = createRequire(import.meta.url)('/usr/share/nodejs/ws');
const TOP = path.resolve(path.dirname(fileURLToPath(import.meta.url)), '../..');
const HISTORY = '/v1/histories/';
const TYPES = {
  '.html': 'text/html; charset=utf-8', '.js': 'text/javascript', '.mjs': 'text/javascript', '.css': 'text/css', '.json': 'application/json',
  '.wasm': 'application/wasm', '.svg': 'image/svg+xml', '.png': 'image/png', '.webmanifest': 'application/manifest+json',
};

const bodyOf = async (request) => {
  const parts = [];
  for await (const it of request) parts.push(it);
  return new Uint8Array(Buffer.concat(parts));
};

class TestServer {
  isDown = false;
  /** Of so many replies over WebSockets one is lost. */
  loseEach = 0;
  replies = 0;
  refused = new Set(['refused']);
  generation = 1;
  renewed = [];
  sockets = new Set();
  watchers = new Set();

  constructor(node, files) {
    this.node = node;
    this.files = files;
    this.web = new WebSocketServer({ noServer: true, handleProtocols: (offered) => (offered.has('realm') ? 'realm' : false) });
    this.http = http.createServer((request, response) => void this.answer(request, response).catch(() => response.destroy()));
    this.http.on('upgrade', (request, socket, head) => this.upgrade(request, socket, head));
  }

  async take(message) {
    const before = this.node.length;
    const reply = await this.node.take(message);
    if (this.node.length > before) {
      for (const it of this.sockets) it.send(`{"news":${this.node.length}}`);
      for (const it of [...this.watchers]) it();
    }
    return reply;
  }

  async answer(request, response) {
    const url = new URL(request.url, 'http://x');
    if (this.isDown) return request.socket.destroy();
    if (!url.pathname.startsWith(HISTORY)) return this.file(url, response);
    if (this.refused.has((request.headers.authorization ?? '').replace('Bearer ', ''))) return response.writeHead(401).end();
    // (as in the service: a device that names no generation is of the first, and who asks for news without one is of any)
    if (this.isOutdated(url, request.method === 'POST' ? 1 : this.generation)) return response.writeHead(410, { 'realm-generation': this.generation }).end();
    if (request.method === 'POST') {
      const reply = await this.take(await bodyOf(request)).catch(() => null);
      return response.writeHead(reply ? 200 : 400, { 'content-type': 'application/octet-stream' }).end(reply ?? '');
    }
    await this.grown(Number(url.searchParams.get('after')), Number(url.searchParams.get('wait')));
    const isNew = this.node.length > Number(url.searchParams.get('after'));
    return response.writeHead(isNew ? 200 : 204, { 'content-type': 'application/json' }).end(isNew ? `{"news":${this.node.length}}` : '');
  }

  grown(after, seconds) {
    if (this.node.length > after || seconds === 0) return;
    return new Promise((done) => {
      const end = () => { clearTimeout(timer); this.watchers.delete(end); done(); };
      const timer = setTimeout(end, seconds * 1000);
      this.watchers.add(end);
    });
  }

  file(url, response) {
    const file = path.join(TOP, decodeURIComponent(url.pathname).replace(/\/$/, '/index.html'));
    if (!file.startsWith(TOP)) return response.writeHead(404).end();
    const type = TYPES[path.extname(file)] ?? 'text/plain';
    return fs.readFile(file, (error, bytes) => {
      response.writeHead(error ? 404 : 200, { 'content-type': type, 'cache-control': 'no-cache', 'service-worker-allowed': '/' });
      response.end(error ? 'not here' : bytes);
    });
  }

  upgrade(request, socket, head) {
    if (this.isDown) return socket.destroy();
    const offered = (request.headers['sec-websocket-protocol'] ?? '').split(',').map((it) => it.trim());
    const token = offered.find((it) => it.startsWith('bearer.'))?.slice(7) ?? '';
    if (this.refused.has(token)) return socket.end('HTTP/1.1 401 Unauthorized\r\n\r\n');
    if (this.isOutdated(new URL(request.url, 'http://x'), 1)) return socket.end('HTTP/1.1 410 Gone\r\n\r\n');
    return this.web.handleUpgrade(request, socket, head, (it) => this.serve(it));
  }

  serve(socket) {
    this.sockets.add(socket);
    socket.on('close', () => this.sockets.delete(socket));
    let queue = Promise.resolve();
    socket.on('message', (data, isBinary) => {
      if (!isBinary) return this.renewed.push(JSON.parse(String(data)).token);
      queue = queue.then(async () => {
        const reply = this.isDown ? null : await this.take(new Uint8Array(data)).catch(() => null);
        this.replies += 1;
        if (reply === null || (this.loseEach && this.replies % this.loseEach === 0)) return socket.terminate();
        socket.send(reply);
      });
      return queue;
    });
  }

  isOutdated(url, unnamed) { return Number(/@(\d+)/.exec(url.pathname)?.[1] ?? unnamed) !== this.generation; }
  get port() { return this.http.address().port; }
  get origin() { return `http://127.0.0.1:${this.port}`; }
  get url() { return `${this.origin}${HISTORY}test`; }
  get socketUrl() { return this.url.replace('http', 'ws'); }

  /** As a network that is gone, and that comes back. */
  down(isDown) {
    this.isDown = isDown;
    if (isDown) for (const it of this.sockets) it.terminate();
  }

  async close() {
    for (const it of this.sockets) it.terminate();
    for (const it of [...this.watchers]) it();
    this.http.closeAllConnections();
    this.http.close();
    await this.node.close();
    await this.files.close();
  }
}

export async function startServer({ port = 0, folder = null } = {}) {
  const files = folder ? await NodeFiles.at(folder) : new MemoryFiles();
  const server = new TestServer(await ServerNode.open(await files.open('history')), files);
  await new Promise((done) => server.http.listen(port, '127.0.0.1', done));
  return server;
}

if (process.argv[1] === fileURLToPath(import.meta.url)) {
  const word = (name, other) => { const at = process.argv.indexOf(`--${name}`); return at < 0 ? other : process.argv[at + 1]; };
  const server = await startServer({ port: Number(word('port', 8123)), folder: word('folder', null) });
  console.log(`${server.origin}/examples/shopping/web/dist/`);
}
