// Decodes the bytes of changesets to edits, in the form in which lines write them. docs/FORMATS.md, "Changesets" and "Messages".

const KEYS = ['Int', 'Text', 'Uuid'];
const KINDS = [, 'Int', 'Bool', 'Text', 'Bytes', 'Time', 'Uuid', 'Link'];
const SHAPES = ['One', 'List', 'Set', 'Dict'];

class Bytes {
  constructor(bytes) {
    this.bytes = bytes;
    this.at = 0;
  }

  byte() {
    if (this.at >= this.bytes.length) throw new Error('a changeset ends early');
    return this.bytes[this.at++];
  }

  /** A number in groups of seven bits, the lowest first. */
  big() {
    for (let value = 0n, shift = 0n; ; shift += 7n) {
      const group = this.byte();
      value += BigInt(group & 127) << shift;
      if (group < 128) return value;
    }
  }

  number() {
    return Number(this.big());
  }

  signed() {
    const value = this.big();
    return Number(value & 1n ? -(value >> 1n) - 1n : value >> 1n);
  }

  run(length) {
    this.at += length;
    return this.bytes.subarray(this.at - length, this.at);
  }

  text() {
    return new TextDecoder().decode(this.run(this.number()));
  }

  hex(length) {
    return Array.from(this.run(length), (byte) => byte.toString(16).padStart(2, '0')).join('');
  }

  uuid() {
    return this.hex(16).replace(/^(.{8})(.{4})(.{4})(.{4})/, '$1-$2-$3-$4-');
  }
}

/** The fields of instructions, over the strings of one changeset. */
class Fields extends Bytes {
  readStrings() {
    this.strings = Array.from({ length: this.number() }, () => this.text());
  }

  name() {
    return this.strings[this.number()];
  }

  key() {
    const tag = this.byte();
    return tag === 0 ? this.signed() : tag === 1 ? this.name() : { uuid: this.uuid() };
  }

  value() {
    const forms = [
      () => null,
      () => this.signed(),
      () => this.byte() === 1,
      () => this.text(),
      () => ({ bytes: this.hex(this.number()) }),
      () => ({ secs: this.signed(), nanos: this.signed() }),
      () => ({ uuid: this.uuid() }),
      () => ({ link: this.name(), key: this.key() }),
    ];
    return forms[this.byte()]();
  }

  cell() {
    return { table: this.name(), key: this.key(), column: this.name() };
  }

  spot() {
    return { place: this.number(), prior: this.number() };
  }

  column() {
    const column = { table: this.name(), column: this.name(), kind: KINDS[this.byte()], nullable: this.byte() === 1, shape: SHAPES[this.byte()] };
    return column.kind === 'Link' ? { ...column, target: this.name() } : column;
  }

  dictChange() {
    const cell = { ...this.cell(), at: this.name() };
    return this.byte() === 1 ? { op: 'DictUpdate', ...cell, value: this.value() } : { op: 'DictErase', ...cell };
  }

  instruction() {
    const forms = {
      1: () => ({ op: 'AddTable', table: this.name(), key: KEYS[this.byte()] }),
      2: () => ({ op: 'AddColumn', ...this.column() }),
      3: () => ({ op: 'CreateObject', table: this.name(), key: this.key() }),
      4: () => ({ op: 'EraseObject', table: this.name(), key: this.key() }),
      5: () => ({ op: 'Update', ...this.cell(), value: this.value() }),
      6: () => ({ op: 'AddInteger', ...this.cell(), amount: this.signed() }),
      7: () => ({ op: 'ListUpdate', ...this.cell(), ...this.spot(), value: this.value() }),
      8: () => ({ op: 'ListInsert', ...this.cell(), ...this.spot(), value: this.value() }),
      9: () => ({ op: 'ListErase', ...this.cell(), ...this.spot() }),
      10: () => ({ op: 'SetInsert', ...this.cell(), value: this.value() }),
      11: () => ({ op: 'SetErase', ...this.cell(), value: this.value() }),
      12: () => this.dictChange(),
      13: () => ({ op: 'Clear', ...this.cell() }),
    };
    return forms[this.byte()]();
  }
}

/** The edits that a changeset's bytes spell, in their order. */
function edits(bytes) {
  const fields = new Fields(bytes);
  fields.byte();
  fields.readStrings();
  return Array.from({ length: fields.number() }, () => fields.instruction());
}

/** The same of bytes in hexadecimal digits. */
export const editsOf = (hex) => edits(Uint8Array.from(hex.match(/../g) ?? [], (digits) => parseInt(digits, 16)));

/** The changes of a frame that is an Upload, by their numbers: the edits of each. No frame has none. */
export function uploadOf(frame) {
  const fields = new Bytes(frame.subarray(5));
  const change = () => {
    const number = fields.number();
    fields.number();
    fields.big();
    return [number, edits(fields.run(fields.number()))];
  };
  if (frame.length === 0) return new Map();
  fields.number();
  return new Map(Array.from({ length: fields.number() }, change));
}

const PLACED = new Set(['ListInsert', 'ListUpdate', 'ListErase']);

/** The edit as one text, without its place in a list: what stays of it where a list instruction is only moved. */
function essence(edit) {
  const kept = Object.entries(edit).filter(([field]) => !(PLACED.has(edit.op) && (field === 'place' || field === 'prior')));
  return JSON.stringify(kept.sort(([left], [right]) => (left < right ? -1 : 1)));
}

const isMoved = (edit, became) => edit.place !== became.place;

/** Of these nothing is left only where another did the same: the table or column is there, the element or object is gone. */
const DONE_ONCE = new Set(['AddTable', 'AddColumn', 'EraseObject', 'ListErase']);

/**
 * What became of each made edit: `{ edit, fate }`, the fate being `kept`, `moved` (to another place of its list, in `became`),
 * `changed` (an update that was carried over an addition has the sum, in `became`), `same` (another did it too) or `dropped`.
 */
export function fates(made, carried) {
  let next = 0;
  const isSameCell = (left, right) => ['op', 'table', 'column'].every((field) => left[field] === right[field]) && JSON.stringify(left.key) === JSON.stringify(right.key);
  const find = (matches) => {
    const found = carried.slice(next).findIndex(matches);
    return found < 0 ? -1 : next + found;
  };
  return made.map((edit) => {
    let at = find((it) => essence(it) === essence(edit));
    if (at < 0 && edit.op === 'Update') at = find((it) => isSameCell(it, edit));
    if (at < 0) return { edit, fate: DONE_ONCE.has(edit.op) ? 'same' : 'dropped' };
    const became = carried[at];
    next = at + 1;
    const fate = essence(became) !== essence(edit) ? 'changed' : PLACED.has(edit.op) && isMoved(edit, became) ? 'moved' : 'kept';
    return { edit, fate, became };
  });
}
