// The blocks of js/README.md behind the ten minutes: compiled by tsc as one program, and run. The last one goes on for ever, until what it draws ends it.
import assert from 'node:assert/strict';
import { execFileSync } from 'node:child_process';
import fs from 'node:fs';
import { createRequire } from 'node:module';
import os from 'node:os';
import path from 'node:path';
import test from 'node:test';
import { fileURLToPath, pathToFileURL } from 'node:url';
import { REASONS } from '../dist/errors.js';
import { openDatabase } from '../dist/node.js';
import { startServer } from './server.mjs';
import { schema } from './common.mjs';

const top = fileURLToPath(new URL('../..', import.meta.url));
const dist = new URL('../dist/', import.meta.url);
const ADDRESS = 'wss://example.org/v1/histories/household';
const NAMES = `
import { hooks } from 'realm-sync/react';
declare const token: string, url: string, React: Parameters<typeof hooks>[0];
declare function draw(items: readonly unknown[]): void;
declare function drawOne(item: unknown): void;
declare function show(state: unknown): void;
declare function tell(what: unknown): void;
declare function keep(db: { close(): Promise<void> }): void;
`;
const OPTIONS = {
  target: 'ES2022', module: 'ES2022', moduleResolution: 'node', lib: ['ES2022', 'DOM', 'DOM.Iterable'], strict: true, noUncheckedIndexedAccess: true, types: [],
  baseUrl: '.', paths: { 'realm-sync': [fileURLToPath(new URL('index.d.ts', dist))], 'realm-sync/*': [fileURLToPath(new URL('*', dist))] },
};
const blocksOf = (file, kind) => [...fs.readFileSync(path.join(top, file), 'utf8').matchAll(new RegExp(`^\`\`\`${kind}\\n([\\s\\S]*?)^\`\`\`$`, 'gm'))].map((it) => it[1]);

/** A program in TypeScript as a module of JavaScript, over the package for Node. */
function compiled(folder, program) {
  fs.writeFileSync(path.join(folder, 'readme.ts'), program);
  fs.writeFileSync(path.join(folder, 'tsconfig.json'), JSON.stringify({ compilerOptions: OPTIONS, include: ['readme.ts'] }));
  execFileSync('tsc', ['-p', folder], { stdio: ['ignore', 'inherit', 'inherit'] });
  const made = fs.readFileSync(path.join(folder, 'readme.js'), 'utf8');
  fs.writeFileSync(path.join(folder, 'readme.mjs'), made.replace("'realm-sync'", `'${new URL('node.js', dist)}'`).replace("'realm-sync/react'", `'${new URL('react.js', dist)}'`));
  return pathToFileURL(path.join(folder, 'readme.mjs')).href;
}

test('the examples of the README compile and run', async (t) => {
  const blocks = blocksOf('js/README.md', 'ts readme');
  assert.equal(blocks.length, 4);
  const server = await startServer();
  const folder = fs.mkdtempSync(path.join(os.tmpdir(), 'readme-'));
  const told = [], kept = [], titles = [], drawn = new Error('drawn');
  t.after(async () => {
    for (const it of [...kept, server]) await it.close();
    fs.rmSync(folder, { recursive: true });
  });
  Object.assign(globalThis, {
    token: 'good', url: server.socketUrl, React: {}, show: (state) => told.push(state.status), tell: () => {}, drawOne: ({ title }) => titles.push(title),
    draw: ([item]) => { if (titles.push(`${item.title}: ${item.steps}`) === 3) throw drawn; }, keep: (db) => kept.push(db),
  });
  globalThis.WebSocket ??= createRequire(import.meta.url)('/usr/share/nodejs/ws').WebSocket;
  // Reading comes last, since its last line goes on for ever.
  const [open, writing, reading, sync] = blocks;
  const program = [NAMES, open.replace(ADDRESS, server.socketUrl), 'keep(db);', writing, sync, reading];
  await assert.rejects(import(compiled(folder, program.join('\n'))), drawn);
  assert.deepEqual(titles, ['Oat milk: pour,shake', 'Oat milk', 'Oat milk: pour,shake']);
  assert.ok(['syncing', 'upToDate', 'recovering'].every((it) => told.includes(it)), told.join());
});

test('the calls that docs/PORTING.md names are there', async () => {
  const db = await openDatabase({ schema });
  const text = fs.readFileSync(path.join(top, 'docs/PORTING.md'), 'utf8');
  const cells = text.split('\n').filter((it) => it.startsWith('| ')).map((it) => it.split(/(?<!\\)\|/)[2] ?? '').join('\n');
  await db.write((tx) => {
    const named = { db, 'tx.items': tx.items, 'tx': tx };
    for (const [whole, of, call] of cells.matchAll(/\b(db|tx\.items)\.(\w+)\(/g)) assert.equal(typeof named[of][call], 'function', whole);
  });
  for (const [whole, call] of cells.matchAll(/(?:query|`)\.(\w+)\(/g)) assert.equal(typeof db.items[call], 'function', whole);
  await db.close();
});

test('the refusals are those of docs/formats/hosts.md', () => {
  const part = fs.readFileSync(path.join(top, 'docs/formats/hosts.md'), 'utf8').split('## Refusals by number')[1].split('##')[0];
  const named = [...part.matchAll(/^\| (\d+) \| (\w+) \|/gm)].map(([, number, name]) => [Number(number), name]);
  assert.deepEqual(named, [...REASONS.entries()].slice(1));
});
