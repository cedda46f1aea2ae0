// The objects as one tab has them: what the core says, as values of code. Nothing is merged here; an object that may have changed is read
// anew.

import { SchemaConflict } from './errors.js';
import { wordsOfColumn } from './conflict.js';
import type { ColumnForm, Key, Schema, TableForm } from './schema.js';
import { parseLine, readCell, readKey } from './values.js';

export type Row = { readonly [field: string]: unknown };

/** An object as its table and key, and its line; null where it is gone. */
export type Put = readonly [table: string, key: string, line: string | null];
/** What changed of one object. */
export interface RowChange { readonly table: string; readonly key: Key; readonly before: Row | undefined; readonly after: Row | undefined }

export class TableRows {
  readonly rows = new Map<Key, Row>();
  /** Indexes of columns by value, made when a query first asks for one. */
  readonly indexes = new Map<string, Map<unknown, Set<Row>>>();

  constructor(readonly form: TableForm) {}

  /** A key of the core's JSON. */
  keyOf(text: string): Key {
    return readKey((parseLine(`[${text}]`) as unknown[])[0]);
  }

  put(key: Key, row: Row | undefined): Row | undefined {
    const before = this.rows.get(key);
    if (row) this.rows.set(key, row);
    else this.rows.delete(key);
    for (const [column, index] of this.indexes) {
      if (before) {
        const same = index.get(before[column]);
        same?.delete(before);
        if (same?.size === 0) index.delete(before[column]);
      }
      if (row) addTo(index, row[column], row);
    }
    return before;
  }

  index(column: string): Map<unknown, Set<Row>> {
    let index = this.indexes.get(column);
    if (!index) {
      index = new Map();
      for (const row of this.rows.values()) addTo(index, row[column], row);
      this.indexes.set(column, index);
    }
    return index;
  }

  /** The object of a line's fields. */
  row(key: Key, cells: Record<string, unknown>): Row {
    const row: Record<string, unknown> = { [this.form.keyName]: key };
    for (const column of this.form.columns) if (column.name in cells) row[column.name] = readCell(column, cells[column.name]);
    return Object.freeze(row);
  }
}

function addTo(index: Map<unknown, Set<Row>>, value: unknown, row: Row): void {
  const same = index.get(value);
  if (same) same.add(row);
  else index.set(value, new Set([row]));
}

/** Puts an object where it is other than before: an own change that comes back from the server is none. */
function replace(rows: TableRows, key: Key, after: Row | undefined): RowChange | null {
  const before = rows.rows.get(key);
  if (before === after || (before && after && isSame(before, after))) return null;
  rows.put(key, after);
  return { table: rows.form.name, key, before, after };
}

/** Whether two values of code are one. */
export function isSame(one: any, other: any): boolean {
  if (one === other) return true;
  if (typeof one !== 'object' || typeof other !== 'object' || one === null || other === null) return false;
  if (one instanceof Date) return other instanceof Date && one.getTime() === other.getTime();
  if (one instanceof Set) return other instanceof Set && one.size === other.size && [...one].every((it) => other.has(it));
  if (Array.isArray(one) || one instanceof Uint8Array) {
    return one.length === other.length && (one as unknown[]).every((it, place) => isSame(it, other[place]));
  }
  const names = Object.keys(one);
  return names.length === Object.keys(other).length && names.every((name) => isSame(one[name], other[name]));
}

interface TableLine {
  readonly key: string;
  readonly table: string;
}
interface ColumnLine {
  readonly column: string;
  readonly kind: string;
  readonly nullable: boolean;
  readonly shape: string;
  readonly table: string;
  readonly target?: string;
}
const declaredWords = ({ field: { kind, nullable, target }, shape }: ColumnForm): string =>
  wordsOfColumn({ kind, nullable, shape, target: target ?? '' });

export class Mirror {
  readonly tables = new Map<string, TableRows>();
  /** Edits that the declared schema lacks in the data. */
  lacking: string[] = [];

  constructor(readonly schema: Schema) {
    for (const form of schema.tables.values()) this.tables.set(form.name, new TableRows(form));
  }

  /** All objects, as a dump says them. Answers what is other than before. */
  load(dump: string): RowChange[] {
    const found = new Map<string, Set<string>>();
    const changes: RowChange[] = [];
    const seen = new Map<string, Set<Key>>();
    const conflicts: SchemaConflict[] = [];
    const bad = new Set<string>();
    for (let at = 0; at < dump.length; ) {
      const end = dump.indexOf('\n', at);
      const line = dump.slice(at, end);
      at = end + 1;
      if (line.startsWith('{"cells"')) {
        const change = this.putLine(line, seen, bad);
        if (change) changes.push(change);
      } else {
        this.meet(JSON.parse(line), found, conflicts);
        for (const it of conflicts) bad.add(it.table);
      }
    }
    for (const rows of this.tables.values()) {
      const here = seen.get(rows.form.name);
      for (const key of [...rows.rows.keys()]) {
        if (!here?.has(key)) changes.push({ table: rows.form.name, key, before: rows.put(key, undefined), after: undefined });
      }
    }
    if (conflicts.length > 0) throw conflicts[0];
    this.lacking = [...this.schema.tables.values()].flatMap((form) => this.lack(form, found));
    return changes;
  }

  private putLine(line: string, seen: Map<string, Set<Key>>, bad: ReadonlySet<string>): RowChange | null {
    const { cells, key: keyForm, table } = parseLine(line) as { cells: Record<string, unknown>; key: unknown; table: string };
    const rows = this.tables.get(table);
    if (!rows || bad.has(table)) return null; // a table that is defined otherwise has no objects here
    const key = readKey(keyForm);
    const here = seen.get(table);
    if (here) here.add(key);
    else seen.set(table, new Set([key]));
    return replace(rows, key, rows.row(key, cells));
  }

  /** A line of a table or a column beside what is declared. */
  private meet(line: TableLine | ColumnLine, found: Map<string, Set<string>>, conflicts: SchemaConflict[]): void {
    const form = this.schema.tables.get(line.table);
    if (!form) return;
    if (!('column' in line)) {
      found.set(line.table, new Set());
      if (line.key !== form.keyKind) conflicts.push(new SchemaConflict(line.table, null, `keys of ${form.keyKind}`, `keys of ${line.key}`));
      return;
    }
    found.get(line.table)?.add(line.column);
    const column = form.column.get(line.column);
    const declared = column && declaredWords(column), words = wordsOfColumn(line);
    if (column && declared !== words) conflicts.push(new SchemaConflict(line.table, line.column, declared!, words));
  }

  private lack(form: TableForm, found: Map<string, Set<string>>): string[] {
    const have = found.get(form.name);
    const table = JSON.stringify(form.name);
    const edits = have ? [] : [`{"op":"AddTable","table":${table},"key":"${form.keyKind}"}`];
    // A link's target has to be there first, so links come behind all tables (`lackingEdits`).
    const columns = form.columns.filter((it) => !have?.has(it.name)).map(({ name, field: { kind, nullable, target }, shape }) => {
      const more = target ? `,"target":${JSON.stringify(target)}` : '';
      const head = `{"op":"AddColumn","table":${table},"column":${JSON.stringify(name)}`;
      return `${head},"kind":"${kind}","nullable":${nullable},"shape":"${shape}"${more}}`;
    });
    return edits.concat(columns);
  }

  /** What the schema lacks, tables first. */
  lackingEdits(): string[] {
    const isTable = (edit: string): boolean => edit.startsWith('{"op":"AddTable"');
    return [...this.lacking.filter(isTable), ...this.lacking.filter((it) => !isTable(it))];
  }

  /** Objects anew. */
  put(puts: readonly Put[]): RowChange[] {
    const changes: RowChange[] = [];
    for (const [table, keyText, line] of puts) {
      const rows = this.tables.get(table);
      if (!rows) continue;
      const key = rows.keyOf(keyText);
      const found = line === null ? null : (parseLine(line) as { cells: Record<string, unknown> });
      const change = replace(rows, key, found ? rows.row(key, found.cells) : undefined);
      if (change) changes.push(change);
    }
    return changes;
  }
}
