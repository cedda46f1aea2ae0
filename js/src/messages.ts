// What the package reads of what the core tells of messages, and of files and changesets: docs/FORMATS.md, "Messages for a host", "The journal" and
// "Changesets". It reads no message by itself, and makes no message and no changeset.

import { textOf } from './door.js';

export const Tag = {
  Bind: 1, Ident: 2, Upload: 3, Ask: 4, Download: 5, Refused: 6, Stored: 7, Ask2: 8, Retire: 9, Retired: 10, AskTables: 11,
} as const;

const KEYS = ['Int', 'Text', 'Uuid'];
const KINDS = ['', 'Int', 'Bool', 'Text', 'Bytes', 'Time', 'Uuid', 'Link'];
const SHAPES = ['One', 'List', 'Set', 'Dict'];
const OPS = [
  '', 'AddTable', 'AddColumn', 'CreateObject', 'EraseObject', 'Update', 'AddInteger', 'ListUpdate', 'ListInsert', 'ListErase', 'SetInsert',
  'SetErase', 'DictUpdate', 'Clear',
];

class Bytes {
  at = 0;
  constructor(readonly bytes: Uint8Array) {}

  byte(): number {
    if (this.at >= this.bytes.length) throw new RangeError('the bytes end early');
    return this.bytes[this.at++]!;
  }

  big(): bigint {
    for (let value = 0n, shift = 0n; ; shift += 7n) {
      const group = this.byte();
      value += BigInt(group & 127) << shift;
      if (group < 128) return value;
    }
  }

  number(): number {
    let value = 0;
    for (let scale = 1; ; scale *= 128) {
      const group = this.byte();
      value += (group & 127) * scale;
      if (group < 128) return value;
    }
  }

  signed(): bigint {
    const value = this.big();
    return value & 1n ? -(value >> 1n) - 1n : value >> 1n;
  }

  run(length: number): Uint8Array {
    if (length > this.bytes.length - this.at) throw new RangeError('the bytes end early');
    this.at += length;
    return this.bytes.subarray(this.at - length, this.at);
  }

  rest(): Uint8Array {
    return this.bytes.subarray(this.at);
  }

  hex(length: number): string {
    let text = '';
    for (const byte of this.run(length)) text += (byte < 16 ? '0' : '') + byte.toString(16);
    return text;
  }

  uuid(): string {
    return this.hex(16).replace(/^(.{8})(.{4})(.{4})(.{4})/, '$1-$2-$3-$4-');
  }
}

/** What a message is about: what it hasn't got is 0. */
export interface Head {
  readonly tag: number;
  readonly ident: number;
  readonly by: number;
  readonly count: number;
  readonly first: number;
  readonly second: number;
  readonly third: number;
}
const BEHIND_UUID = 17;

/** A head as the core tells it. */
export function headOf(told: Uint8Array): Head {
  const view = new DataView(told.buffer, told.byteOffset + BEHIND_UUID);
  const at = (place: number): number => view.getUint32(4 * place, true);
  return { tag: told[0]!, ident: at(0), by: at(1), count: at(2), first: at(3), second: at(4), third: at(5) };
}

/** A change that an Upload bears, of which `first` is the number and `second` the base, or an entry of a Download, of which they are the origin
 * and the number. */
export interface Borne { readonly first: number; readonly second: number; readonly ms: bigint; readonly body: Uint8Array }

/** What the core tells that a message bears. */
export function borneIn(told: Uint8Array): Borne[] {
  const view = new DataView(told.buffer, told.byteOffset);
  const all: Borne[] = [];
  for (let at = 0; at < told.length; ) {
    const end = at + 20 + view.getUint32(at + 16, true);
    const ms = view.getBigUint64(at + 8, true);
    all.push({ first: view.getUint32(at, true), second: view.getUint32(at + 4, true), ms, body: told.subarray(at + 20, end) });
    at = end;
  }
  return all;
}

export interface Change { readonly number: number; readonly ms: bigint; readonly body: Uint8Array }

/** The records of a client's file: docs/FORMATS.md, "The journal" and "Records". */
function* recordsOf(journal: Uint8Array): IterableIterator<Bytes> {
  const view = new DataView(journal.buffer, journal.byteOffset, journal.byteLength);
  for (let at = 8; journal[at] === 1; ) {
    const length = view.getUint32(at + 1);
    if (length > 0) yield new Bytes(journal.subarray(at + 5, at + 5 + length));
    at += 5 + length;
  }
}

/** The changes of that ident in the history, in order: the file has all entries that its client took. */
export function changesOf(ident: number, journal: Uint8Array): Change[] {
  const found: Change[] = [];
  for (const record of recordsOf(journal)) {
    if (record.byte() === 4 && record.number() === ident) found.push({ number: record.number(), ms: record.big(), body: record.rest() });
  }
  return found;
}

export interface Entry extends Change { readonly origin: number; readonly version: number }

/** The edits of a changeset, as the lines of the core write them, each as JSON. */
export function editsOf(body: Uint8Array): string[] {
  const from = new Bytes(body);
  from.byte();
  const strings: string[] = [];
  for (let count = from.number(); count > 0; count--) strings.push(JSON.stringify(textOf(from.run(from.number()))));
  const reader = new Edits(from, strings), edits: string[] = [];
  for (let count = from.number(); count > 0; count--) edits.push(reader.edit());
  return edits;
}

/** Reads the instructions of a changeset, whose strings are known. */
class Edits {
  constructor(private readonly from: Bytes, private readonly strings: readonly string[]) {}

  private name(): string {
    const name = this.strings[this.from.number()];
    if (name === undefined) throw new RangeError('a name that is not there');
    return name;
  }

  private key(): string {
    const tag = this.from.byte();
    if (tag === 0) return this.from.signed().toString();
    return tag === 1 ? this.name() : `{"uuid":"${this.from.uuid()}"}`;
  }

  private value(): string {
    const { from } = this;
    switch (from.byte()) {
      case 0: return 'null';
      case 1: return from.signed().toString();
      case 2: return from.byte() === 1 ? 'true' : 'false';
      case 3: return JSON.stringify(textOf(from.run(from.number())));
      case 4: return `{"bytes":"${from.hex(from.number())}"}`;
      case 5: return `{"secs":${from.signed()},"nanos":${from.signed()}}`;
      case 6: return `{"uuid":"${from.uuid()}"}`;
      default: return `{"link":${this.name()},"key":${this.key()}}`;
    }
  }

  private column(): string {
    const kind = KINDS[this.from.byte()]!;
    const may = this.from.byte() === 1, shape = SHAPES[this.from.byte()];
    const target = kind === 'Link' ? `,"target":${this.name()}` : '';
    return `"kind":"${kind}","nullable":${may},"shape":"${shape}"${target}`;
  }

  edit(): string {
    const op = this.from.byte();
    const table = `"table":${this.name()}`;
    if (op === 1) return `{"op":"AddTable",${table},"key":"${KEYS[this.from.byte()]}"}`;
    if (op === 2) return `{"op":"AddColumn",${table},"column":${this.name()},${this.column()}}`;
    const object = `${table},"key":${this.key()}`;
    if (op <= 4) return `{"op":"${OPS[op]}",${object}}`;
    return this.cellEdit(op, `${object},"column":${this.name()}`);
  }

  private cellEdit(op: number, cell: string): string {
    const { from } = this;
    if (op === 12) {
      const at = this.name();
      return from.byte() === 1 ? `{"op":"DictUpdate",${cell},"at":${at},"value":${this.value()}}` : `{"op":"DictErase",${cell},"at":${at}}`;
    }
    const head = `{"op":"${OPS[op]}",${cell}`;
    if (op === 13) return `${head}}`;
    if (op === 6) return `${head},"amount":${from.signed()}}`;
    const spot = op >= 7 && op <= 9 ? `,"place":${from.number()},"prior":${from.number()}` : '';
    return op === 9 ? `${head}${spot}}` : `${head}${spot},"value":${this.value()}}`;
  }
}
