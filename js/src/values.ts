// Keys and values between code and the core's JSON: docs/FORMATS.md, "Values, keys and columns".

import { textOf, utf8 } from './door.js';
import { InvalidValue, type ColumnName } from './errors.js';
import type { ColumnForm, Field, Key, KeyKind, TableForm } from './schema.js';

const INT_MIN = -(2n ** 63n), INT_MAX = 2n ** 63n - 1n;
const UUID = /^[0-9a-f]{8}-[0-9a-f]{4}-[0-9a-f]{4}-[0-9a-f]{4}-[0-9a-f]{12}$/;

/** A text without half characters, which UTF-8 doesn't have: they become U+FFFD, as everywhere in a browser. */
export const wellFormed = (value: string): string => (/[\ud800-\udfff]/.test(value) ? textOf(utf8(value)) : value);

/** A text as JSON. */
export const quote = (value: string): string => JSON.stringify(wellFormed(value));

function int(value: unknown, where: ColumnName): string {
  if (typeof value === 'bigint') {
    if (value < INT_MIN || value > INT_MAX) throw new InvalidValue(`${where}: ${value} has more than 64 bits`, where);
    return value.toString();
  }
  if (typeof value !== 'number' || !Number.isSafeInteger(value)) {
    throw new InvalidValue(`${where}: ${String(value)} is no integer that a number has exactly`, where);
  }
  return (value + 0).toString() === '-0' ? '0' : value.toString();
}

function uuidText(value: unknown, where: ColumnName): string {
  const lower = typeof value === 'string' ? value.toLowerCase() : '';
  if (!UUID.test(lower)) throw new InvalidValue(`${where}: ${String(value)} is no uuid`, where);
  return lower;
}

const hexOf = (bytes: Uint8Array): string => {
  let text = '';
  for (const byte of bytes) text += (byte < 16 ? '0' : '') + byte.toString(16);
  return text;
};
const bytesOf = (hex: string): Uint8Array => {
  const bytes = new Uint8Array(hex.length / 2);
  for (let i = 0; i < bytes.length; i++) bytes[i] = parseInt(hex.substr(2 * i, 2), 16);
  return bytes;
};

/** The key as code has it everywhere: a uuid in lower case, a small bigint as a number. */
export function plainKey(kind: KeyKind, value: unknown, where: ColumnName): Key {
  if (kind === 'Uuid') return uuidText(value, where);
  if (kind === 'Int') {
    const text = int(value, where);
    return Number.isSafeInteger(Number(text)) ? Number(text) : BigInt(text);
  }
  if (typeof value !== 'string' || utf8(value).length > 255) throw new InvalidValue(`${where}: a text key has at most 255 bytes`, where);
  return wellFormed(value);
}

/** A key as objects have it: a uuid may be asked for in upper case, a small integer as a bigint. */
export const spelledKey = (form: TableForm, value: Key): Key => {
  if (form.keyKind === 'Uuid' && typeof value === 'string') return value.toLowerCase();
  return typeof value === 'bigint' && Number.isSafeInteger(Number(value)) ? Number(value) : value;
};

export function keyJson(kind: KeyKind, value: Key): string {
  if (kind === 'Uuid') return `{"uuid":"${value as string}"}`;
  return kind === 'Int' ? value.toString() : quote(value as string);
}

/** A value of a column as JSON. */
export function valueJson(field: Field<unknown, any>, tables: ReadonlyMap<string, TableForm>, value: unknown, where: ColumnName): string {
  if (value === null || value === undefined) {
    if (!field.nullable) throw new InvalidValue(`${where} is not nullable`, where);
    return 'null';
  }
  switch (field.kind) {
    case 'Int': return int(value, where);
    case 'Bool':
      if (typeof value !== 'boolean') break;
      return value ? 'true' : 'false';
    case 'Text':
      if (typeof value !== 'string') break;
      return quote(value);
    case 'Bytes':
      if (!(value instanceof Uint8Array)) break;
      return `{"bytes":"${hexOf(value)}"}`;
    case 'Time': {
      const ms = value instanceof Date ? value.getTime() : NaN;
      if (!Number.isFinite(ms)) break;
      const secs = Math.trunc(ms / 1000);
      return `{"secs":${secs + 0},"nanos":${(ms - secs * 1000) * 1_000_000 + 0}}`;
    }
    case 'Uuid': return `{"uuid":"${uuidText(value, where)}"}`;
    case 'Link': {
      const target = tables.get(field.target!)!;
      return `{"link":${quote(target.name)},"key":${keyJson(target.keyKind, plainKey(target.keyKind, value, where))}}`;
    }
  }
  throw new InvalidValue(`${where}: ${typeof value} is no ${field.kind}`, where);
}

export const atJson = (at: string, where: ColumnName): string => {
  if (utf8(at).length > 255) throw new InvalidValue(`${where}: a text key has at most 255 bytes`, where);
  return quote(at);
};

// ---- reading

/** An integer of 16 digits and more, which JSON.parse rounds: kept aside as a text that begins with half a character, as no text does. */
const LONG = /[[:,]-?\d{16,}/;
const LONG_INT = /^\ud800-?\d{16,}$/;
const TOKENS = /"(?:[^"\\]|\\.)*"|-?\d{16,}/g;

export function parseLine(line: string): unknown {
  if (!LONG.test(line)) return JSON.parse(line);
  return JSON.parse(line.replace(TOKENS, (token) => (token[0] === '"' ? token : `"\\ud800${token}"`)));
}

/** A key that `parseLine` read, as JSON again. */
export function textOfKey(parsed: unknown): string {
  return typeof parsed === 'string' && LONG_INT.test(parsed) ? parsed.slice(1) : JSON.stringify(parsed);
}

/** The last moment that a Date has; one beyond it, of another program, reads as this one. */
const MOST_MS = 8.64e15;

function readInt(it: unknown, big: boolean): number | bigint {
  const exact = typeof it === 'string' ? BigInt(it.slice(1)) : (it as number);
  return big ? BigInt(exact) : Number(exact);
}

export function readKey(it: unknown): Key {
  if (typeof it === 'object') return (it as { uuid: string }).uuid;
  if (typeof it !== 'string' || !LONG_INT.test(it)) return it as Key;
  const exact = BigInt(it.slice(1));
  return Number.isSafeInteger(Number(exact)) ? Number(exact) : exact;
}

function readValue(field: Field<unknown, any>, it: any): unknown {
  if (it === null) return null;
  switch (field.kind) {
    case 'Int': return readInt(it, field.big);
    case 'Bool':
    case 'Text': return it;
    case 'Bytes': return bytesOf(it.bytes);
    case 'Time': return new Date(Math.max(-MOST_MS, Math.min(MOST_MS, Number(readInt(it.secs, false)) * 1000 + Math.floor(it.nanos / 1_000_000))));
    case 'Uuid': return it.uuid;
    case 'Link': return readKey(it.key);
  }
}

/** An element of a cell, or the value of a cell of one value, as code reads it. */
export const readElement = (form: ColumnForm, it: unknown): unknown => readValue(form.field, it);

/** The same of JSON that was written here. */
export const parseElement = (form: ColumnForm, json: string): unknown => readElement(form, (parseLine(`[${json}]`) as unknown[])[0]);

/** A cell as code reads it. */
export function readCell(form: ColumnForm, it: any): unknown {
  const { field } = form;
  switch (form.shape) {
    case 'One': return readValue(field, it);
    case 'List': return Object.freeze(field.kind === 'Text' || field.kind === 'Bool' ? it : it.map((element: unknown) => readValue(field, element)));
    case 'Set': return new Set(it.map((element: unknown) => readValue(field, element)));
    case 'Dict': {
      const entries = Object.entries(it).map(([at, element]) => [at, readValue(field, element)]);
      return Object.freeze(Object.assign(Object.create(null), Object.fromEntries(entries)));
    }
  }
}
