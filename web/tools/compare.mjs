// Tells whether the module does what the native program does, byte for byte: each recorded exchange of the examples, three
// generated ones, and each command that scripts run over files, with what it leaves in its file. It does so in node and in headless
// Chromium. Any other byte ends with status 1.

import { execFileSync } from 'node:child_process';
import fs from 'node:fs';
import os from 'node:os';
import path from 'node:path';
import { fileURLToPath } from 'node:url';
import { Browser, serve } from './browser.mjs';
import { commandsIn } from './module.mjs';

const top = fileURLToPath(new URL('../..', import.meta.url));
const native = process.env.REALM_SYNC ?? path.join(top, 'realm_sync');
const examples = path.join(top, 'examples');
const TURNS = '1000';
const SEEDS = ['1', '2', '3'];
const SCRIPTS = ['examples/two_devices.sh', 'examples/heir.sh', 'web/tools/commands.sh'];

/** One command without a file, and what the program writes. It throws where that ends with a status. */
function command(words, input) {
  const output = execFileSync(native, words, { input, maxBuffer: 1 << 28 });
  return { words, input: input.toString('base64'), before: null, exit: 0, output: output.toString('base64'), file: null };
}

/** The commands of a script, as the program runs them. */
function commandsOf(script) {
  const folder = fs.mkdtempSync(path.join(os.tmpdir(), 'compare-'));
  const record = path.join(folder, 'record');
  const env = { ...process.env, PROGRAM: native, RECORD: record };
  execFileSync('sh', [path.join(top, script), fileURLToPath(new URL('record.mjs', import.meta.url))], { env, stdio: ['ignore', 'ignore', 'pipe'] });
  const lines = fs.readFileSync(record, 'utf8').trimEnd().split('\n');
  fs.rmSync(folder, { recursive: true });
  return lines.map(JSON.parse);
}

function cases() {
  const recorded = fs.readdirSync(examples).filter((name) => name.endsWith('.jsonl'));
  return [
    ...recorded.map((name) => ({ name, commands: [command(['replay'], fs.readFileSync(path.join(examples, name)))] })),
    ...SEEDS.map((seed) => ({ name: `gen ${seed} ${TURNS}`, commands: [command(['gen', seed, TURNS], Buffer.alloc(0))] })),
    ...SCRIPTS.map((name) => ({ name, commands: commandsOf(name) })),
  ];
}

function byNode() {
  const module = new WebAssembly.Module(fs.readFileSync(path.join(top, 'web/realm_sync.wasm')));
  return (commands) => commandsIn(module, commands);
}

async function byBrowser(browser, origin) {
  await browser.open(`${origin}/web/style.css`);
  await browser.evaluate(`(async () => {
    const { commandsIn } = await import('/web/tools/module.mjs');
    const module = await WebAssembly.compile(await (await fetch('/web/realm_sync.wasm')).arrayBuffer());
    globalThis.run = (commands) => commandsIn(module, commands);
  })()`);
  return (commands) => browser.evaluate(`run(${JSON.stringify(commands)})`);
}

/** The first thing that came out otherwise in a command, or null. */
function difference(wanted, got) {
  const field = ['exit', 'output', 'file'].find((it) => wanted[it] !== got[it]);
  if (!field) return null;
  const [left, right] = [wanted[field], got[field]].map((it) => Buffer.from(String(it), 'base64'));
  const at = left.findIndex((byte, place) => byte !== right[place]);
  return `${wanted.words.join(' ')}: another ${field}${field === 'exit' ? `, ${got.exit}` : `, from byte ${at < 0 ? left.length : at} on`}`;
}

async function compare(all, where, run) {
  let differing = 0;
  for (const { name, commands } of all) {
    const got = await run(commands);
    const found = commands.map((wanted, at) => difference(wanted, got[at])).find((it) => it !== null);
    if (found) differing += 1;
    const bytes = commands.flatMap(({ output, file }) => [output, file ?? '']).reduce((sum, it) => sum + Buffer.from(it, 'base64').length, 0);
    console.log(`${where}: ${name}: ${found ?? `${commands.length === 1 ? 'the same' : `${commands.length} commands, the same`} ${bytes} bytes`}`);
  }
  return differing;
}

const start = Date.now();
const all = cases();
console.log(`native: ${all.flatMap(({ commands }) => commands).length} commands in ${Math.round((Date.now() - start) / 1000)} s`);
const server = await serve(top);
const browser = await Browser.start();
let differing;
try {
  differing = await compare(all, 'node', byNode());
  differing += await compare(all, 'Chromium', await byBrowser(browser, server.origin));
} finally {
  await browser.close();
  server.close();
}
const seconds = Math.round((Date.now() - start) / 1000);
console.log(differing === 0 ? `compare: all the same, after ${seconds} s` : `compare: ${differing} differ`);
process.exit(differing === 0 ? 0 : 1);
