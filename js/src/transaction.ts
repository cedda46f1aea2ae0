// One transaction as code writes it: typed verbs that become edits. It reads its own edits; what they come to is the core's to say, when the
// transaction is committed.

import { ColumnName, InvalidValue } from './errors.js';
import { handleOf, type Draft } from './handles.js';
import type { Mirror, Row, TableRows } from './mirror.js';
import type { ColumnForm, DictHandle, Handles, Key, KeyOf, ListHandle, New, ObjectOf, Patch, SetHandle, TableForm, Tables } from './schema.js';
import { keyJson, parseElement, plainKey, quote, readCell, valueJson } from './values.js';

/** The verbs on a table. */
export interface TableWriter<T> {
  get(key: KeyOf<T>): ObjectOf<T> | undefined;
  has(key: KeyOf<T>): boolean;
  all(): IterableIterator<ObjectOf<T>>;
  /** Makes an object, and answers its key. Where it is there already, the given columns are set. */
  create(...values: {} extends New<T> ? [New<T>?] : [New<T>]): KeyOf<T>;
  /** Sets columns of one value. */
  update(key: KeyOf<T>, patch: Patch<T>): void;
  erase(key: KeyOf<T>): void;
  /** The counters, lists, sets and dictionaries of an object. */
  at(key: KeyOf<T>): Handles<T>;
}
export type Writer<T extends Tables> = { readonly [N in keyof T]: TableWriter<T[N]> };

/** An object that a transaction changes: a copy of it for reading. */
class Edited {
  constructor(public row: Draft | null) {}
}

export class Transaction {
  readonly edits: string[] = [];
  private readonly edited = new Map<string, Map<Key, Edited>>();
  readonly writer: Writer<Tables>;
  private isOpen = true;
  /** Whether its edits rest on what it read: else it is committed as it is, whatever came between. */
  hasRead = false;

  /** `before` is a transaction that will be committed right before this one. */
  constructor(private readonly mirror: Mirror, private readonly before: Transaction | null = null) {
    const writers: Record<string, unknown> = {};
    for (const rows of mirror.tables.values()) {
      const made = () => new TableEditor(this, rows);
      Object.defineProperty(writers, rows.form.name, { get: () => made(), enumerable: true });
    }
    this.writer = writers as Writer<Tables>;
  }

  close(): void {
    this.isOpen = false;
  }

  push(edit: string): void {
    if (!this.isOpen) throw new InvalidValue('the transaction has ended: its verbs are called before the function of write() returns');
    this.edits.push(edit);
  }

  get tables(): ReadonlyMap<string, TableForm> {
    return this.mirror.schema.tables;
  }

  read(rows: TableRows, key: Key): Row | undefined {
    const edited = this.edited.get(rows.form.name)?.get(key);
    return edited ? edited.row ?? undefined : this.base(rows, key);
  }

  private base(rows: TableRows, key: Key): Row | undefined {
    return this.before ? this.before.read(rows, key) : rows.rows.get(key);
  }

  /** All objects of a table. */
  *all(rows: TableRows): IterableIterator<Row> {
    const changed = this.edited.get(rows.form.name);
    for (const row of this.before ? this.before.all(rows) : rows.rows.values()) {
      if (!changed?.has(row[rows.form.keyName] as Key)) yield row;
    }
    for (const { row } of changed?.values() ?? []) if (row) yield row;
  }

  /** The copy of an object that this transaction changes. */
  draft(rows: TableRows, key: Key): Edited {
    let table = this.edited.get(rows.form.name);
    if (!table) this.edited.set(rows.form.name, (table = new Map()));
    let edited = table.get(key);
    if (!edited) {
      const row = this.base(rows, key);
      table.set(key, (edited = new Edited(row ? { ...shown(row) } : null)));
    }
    return edited;
  }
}

/** An object as code reads it, which never changes: what is edited later is a copy. */
function shown(row: Row): Row {
  if (Object.isFrozen(row)) return row;
  for (const cell of Object.values(row)) if (Array.isArray(cell)) Object.freeze(cell);
  return Object.freeze({ ...row });
}

const ZERO: Record<string, () => unknown> = {
  Int: () => 0,
  Bool: () => false,
  Text: () => '',
  Bytes: () => new Uint8Array(0),
  Time: () => new Date(0),
  Uuid: () => '00000000-0000-0000-0000-000000000000',
  Link: () => null,
};

/** What a cell of a new object has: docs/FORMATS.md says it, and the core does it; this is for the transaction's own reading. */
function defaultOf({ field, shape }: ColumnForm): unknown {
  if (shape === 'List' || shape === 'Set') return readCell({ name: '', field, shape }, []);
  if (shape === 'Dict') return Object.freeze(Object.create(null));
  if (field.nullable) return null;
  return field.big ? 0n : ZERO[field.kind]!();
}

const EDITOR = Symbol(), KEY = Symbol();
type HandlesClass = new (editor: TableEditor, key: Key) => Record<string, any>;
const handleClasses = new WeakMap<TableForm, HandlesClass>();
/** A class with a getter for each column of a table. */
function handlesOf(form: TableForm): HandlesClass {
  let made = handleClasses.get(form);
  if (!made) {
    made = class {
      readonly [EDITOR]: TableEditor;
      readonly [KEY]: Key;
      constructor(editor: TableEditor, key: Key) {
        this[EDITOR] = editor;
        this[KEY] = key;
      }
    } as unknown as HandlesClass;
    for (const column of form.columns) {
      const get = function (this: any) { return this[EDITOR].handle(this[KEY], column); };
      Object.defineProperty(made.prototype, column.name, { enumerable: true, get });
    }
    handleClasses.set(form, made);
  }
  return made;
}

class TableEditor implements TableWriter<any> {
  private readonly form: TableForm;
  private readonly name: string;

  constructor(private readonly transaction: Transaction, private readonly rows: TableRows) {
    this.form = rows.form;
    this.name = quote(this.form.name);
  }

  private named(column: string): ColumnName {
    return new ColumnName(this.form.name, column);
  }

  private key(value: unknown): Key {
    return plainKey(this.form.keyKind, value, this.named(this.form.keyName));
  }

  private head(op: string, key: Key): string {
    return `{"op":"${op}","table":${this.name},"key":${keyJson(this.form.keyKind, key)}`;
  }

  get(key: any): any {
    this.transaction.hasRead = true;
    const row = this.transaction.read(this.rows, this.key(key));
    return row && shown(row);
  }

  has(key: any): boolean {
    this.transaction.hasRead = true;
    return this.transaction.read(this.rows, this.key(key)) !== undefined;
  }

  *all(): IterableIterator<any> {
    this.transaction.hasRead = true;
    for (const row of this.transaction.all(this.rows)) yield shown(row);
  }

  create(values: Record<string, any> = {}): any {
    const { keyName, keyKind } = this.form;
    const given = values[keyName];
    if (given === undefined && keyKind !== 'Uuid') throw new InvalidValue(`${this.form.name}: create needs ${keyName}`, this.named(keyName));
    const key = this.key(given ?? crypto.randomUUID());
    this.transaction.push(`${this.head('CreateObject', key)}}`);
    const draft = this.transaction.draft(this.rows, key);
    if (!draft.row) {
      draft.row = { [keyName]: key };
      for (const column of this.form.columns) draft.row[column.name] = defaultOf(column);
    }
    for (const [name, value] of Object.entries(values)) if (name !== keyName && value !== undefined) this.fill(key, name, value);
    return key;
  }

  private column(name: string): ColumnForm {
    const column = this.form.column.get(name);
    if (!column) throw new InvalidValue(`${this.form.name} has no column ${name}`, this.named(name));
    return column;
  }

  private fill(key: Key, name: string, value: any): void {
    const column = this.column(name);
    if (column.shape === 'One') return this.assign(key, column, value);
    const handle = this.at(key)[name];
    const isDict = column.shape === 'Dict';
    // A text is one value, and not its characters.
    if (!(value instanceof Object) || Symbol.iterator in value === isDict) {
      const form = isDict ? 'an object' : 'an array or a set';
      throw new InvalidValue(`${this.named(name)}: a ${column.shape.toLowerCase()} is given as ${form}`, this.named(name));
    }
    if (column.shape === 'Dict') {
      for (const [at, it] of Object.entries(value)) (handle as DictHandle<unknown>).set(at, it);
    } else if (column.shape === 'Set') (handle as SetHandle<unknown>).add(...value);
    else (handle as ListHandle<unknown>).push(...value);
  }

  private assign(key: Key, column: ColumnForm, value: unknown): void {
    const json = valueJson(column.field, this.transaction.tables, value, this.named(column.name));
    this.transaction.push(`${this.head('Update', key)},"column":${quote(column.name)},"value":${json}}`);
    const { row } = this.transaction.draft(this.rows, key);
    if (row) row[column.name] = parseElement(column, json);
  }

  update(key: any, patch: Record<string, unknown>): void {
    const plain = this.key(key);
    for (const [name, value] of Object.entries(patch)) {
      if (value === undefined) continue;
      const column = this.column(name);
      if (column.shape !== 'One') {
        const at = this.named(name);
        throw new InvalidValue(`${at} is a ${column.shape.toLowerCase()}: change it by at(key).${name}`, at);
      }
      this.assign(plain, column, value);
    }
  }

  erase(key: any): void {
    const plain = this.key(key);
    this.transaction.push(`${this.head('EraseObject', plain)}}`);
    this.transaction.draft(this.rows, plain).row = null;
  }

  at(key: any): any {
    const plain = this.key(key);
    return new (handlesOf(this.form))(this, plain);
  }

  handle(key: Key, column: ColumnForm): ReturnType<typeof handleOf> {
    const { transaction, rows } = this;
    const where = this.named(column.name);
    const field = column.shape === 'One' ? { ...column.field, nullable: false } : column.field;
    return handleOf({
      column,
      where,
      edit: (op, more = '') => transaction.push(`${this.head(op, key)},"column":${quote(column.name)}${more}}`),
      json: (value) => valueJson(field, transaction.tables, value, where),
      read: (json) => parseElement(column, json),
      draft: () => transaction.draft(rows, key).row,
      hasRead: () => { transaction.hasRead = true; },
    });
  }
}
