// The exchange: phones and a server, each a file, and the commands that were run over them so far, with what each printed.

import { uploadOf } from './changeset.js';
import { Files } from './files.js';
import { joined, runProgram } from './program.js';
import { nodeOf, outcomesOf } from './report.js';

export const SERVER = 'server';
const UUID_FRONT = '00000000-0000-4000-8000-';
const NOTHING = new Uint8Array(0);
/** Commands that leave the file as it is. */
const READERS = new Set(['show', 'send', 'ask', 'rescue', 'retire']);
/** The head of the script that does the same in a shell. */
const HEAD = `#!/bin/sh
# What the page did, by the same commands, in a new folder. The program is the first argument: its whole path.
set -eu
program=$1
realm_sync() { "$program" "$@"; }
cd "$(mktemp -d)"
`;

const encoder = new TextEncoder();
const decoder = new TextDecoder('utf-8', { fatal: true });

/** A pipeline as it is written in a shell. */
const spelled = (commands) => commands.map((words) => ['realm_sync', ...words].join(' ')).join(' | ');

/** The program ended with another status than 0, or answered otherwise than the page needs. */
export class NotDone extends Error {}

export class Exchange {
  constructor(module) {
    this.module = module;
    this.files = new Files();
    this.names = [];
    this.acts = [];
    this.shown = new Map();
    this.clock = 0;
    this.runs = 0;
  }

  /** One command over the file that it names: what it writes. */
  run(words, input = NOTHING) {
    const { exit, output, errors } = runProgram(this.module, words, input, this.files);
    this.runs += 1;
    if (!READERS.has(words[0])) this.shown.delete(words[1]);
    if (exit !== 0) throw new NotDone(`realm_sync ${words.join(' ')}: ${decoder.decode(errors).trim()}`);
    return output;
  }

  /** Commands of which each reads what the one before it wrote. */
  pipe(commands) {
    return commands.reduce((input, words) => this.run(words, input), NOTHING);
  }

  /** Keeps what was done: how it is written in a shell, and what it printed. */
  keep(act, command, output) {
    const printed = decoder.decode(output);
    this.acts.push({ ...act, command, printed, outcomes: outcomesOf(printed) });
    return this.acts.at(-1);
  }

  /** What `show` tells of a client, or of the server. */
  node(name) {
    if (!this.shown.has(name)) this.shown.set(name, nodeOf(decoder.decode(this.run(['show', name]))));
    return this.shown.get(name);
  }

  history() {
    return this.node(SERVER).history;
  }

  /** Lines for `edit`. */
  edit(node, lines, more = {}) {
    const text = lines.map((line) => `${JSON.stringify(line)}\n`).join('');
    const output = this.run(['edit', node], encoder.encode(text));
    return this.keep({ kind: 'edit', node, ...more }, `${spelled([['edit', node]])} <<'LINES'\n${text}LINES`, output);
  }

  /** What a client sends or asks goes to the server, and the reply comes back. */
  carry(kind, node, word = kind) {
    const commands = [[word, node], ['serve', SERVER], ['take', node]];
    return this.keep({ kind, node }, spelled(commands), this.pipe(commands));
  }

  /** The page's clock in milliseconds. It never stands still, so that of two edits the one made later has the later stamp. */
  now() {
    this.clock = Math.max(this.clock + 1, Date.now());
    return this.clock;
  }

  /** A new client, whose file is of form 2 (dictionaries stand in it alone). What it sends first gives it a number. */
  join(name) {
    this.names.push(name);
    this.edit(name, [{ uuid: UUID_FRONT + String(this.names.length).padStart(12, '0') }, { upgrade: 2 }]);
    this.carry('bind', name, 'send');
  }

  /** One transaction of a client: its outcome. */
  commit(name, edits) {
    return this.edit(name, [{ ms: this.now(), edits }], { edits }).outcomes[0];
  }

  /** These clients send what they made, and then ask for what they haven't taken. */
  sync(names) {
    for (const name of names) if (this.node(name).unsent > 0) this.carry('send', name);
    for (const name of names) if (this.node(name).cursor < this.history().length) this.carry('ask', name);
  }

  /** The refusal of the last part of the history that a client asked for, or null where it took that. */
  refusal(name) {
    const outcome = this.acts.findLast((act) => act.kind === 'ask' && act.node === name)?.outcomes[0];
    return outcome?.kind === 'refused' ? outcome : null;
  }

  /** A new client takes over from one that is held up: it takes the history, retires the other, and saves what can be saved. */
  takeOver(heir, from) {
    this.join(heir);
    this.sync([heir]);
    const retire = [['retire', heir, String(this.node(from).ident)], ['serve', SERVER]];
    const rescue = [['rescue', from, '0']];
    const recover = [['recover', heir]];
    const retired = this.pipe(retire);
    const rescued = this.pipe(rescue);
    const output = this.run(recover[0], joined([retired, rescued]));
    const command = `${spelled(retire)} >frames\n${spelled(rescue)} >>frames\n${spelled(recover)} <frames`;
    this.keep({ kind: 'recover', node: heir, from, unsent: uploadOf(rescued), made: this.unsent(heir) }, command, output);
  }

  /** The edits of what a client made and hasn't seen in the history, by their numbers. */
  unsent(name) {
    return uploadOf(this.run(['rescue', name, '0']));
  }

  /** What `show` prints of the server and of these clients. */
  report(names) {
    return [SERVER, ...names].map((name) => this.node(name).text).join('');
  }

  /** A script that does the same in a shell, and prints what was printed here and then the report. */
  script(names) {
    const shows = [SERVER, ...names].map((name) => spelled([['show', name]]));
    return `${HEAD}${[...this.acts.map((act) => act.command), ...shows].join('\n')}\n`;
  }
}
