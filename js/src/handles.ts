// The verbs on a counter, a set, a dictionary or a list of one object, in a transaction.

import { InvalidValue, type ColumnName } from './errors.js';
import { isSame } from './mirror.js';
import type { ColumnForm, CounterHandle, DictHandle, ListHandle, SetHandle } from './schema.js';
import { atJson, wellFormed } from './values.js';

export type Draft = Record<string, unknown>;

/** A cell of an object that a transaction changes. */
export interface Cell {
  readonly column: ColumnForm;
  /** Its name for errors. */
  readonly where: ColumnName;
  /** Adds an edit of the cell. */
  edit(op: string, more?: string): void;
  json(value: unknown): string;
  /** An element, or a value of the cell, as it is read back of its JSON. */
  read(json: string): unknown;
  /** The object as this transaction reads it; null where it isn't there. */
  draft(): Draft | null;
  /** From now on the transaction rests on what it read. */
  hasRead(): void;
}

export function handleOf(cell: Cell): CounterHandle | SetHandle<unknown> | DictHandle<unknown> | ListHandle<unknown> {
  switch (cell.column.shape) {
    case 'One': return new CounterEditor(cell);
    case 'Set': return new SetEditor(cell);
    case 'Dict': return new DictEditor(cell);
    case 'List': return new ListEditor(cell);
  }
}

class CounterEditor implements CounterHandle {
  constructor(private readonly cell: Cell) {}

  add(amount: number | bigint): void {
    const { column: { field, name }, where } = this.cell;
    if (field.kind !== 'Int') throw new InvalidValue(`${where} is no number`, where);
    if (amount === null) throw new InvalidValue(`${where}: null is no amount`, where);
    this.cell.edit('AddInteger', `,"amount":${this.cell.json(amount)}`);
    const row = this.cell.draft();
    if (!row || row[name] === null) return;
    const sum = BigInt.asIntN(64, BigInt(row[name] as number | bigint) + BigInt(amount));
    row[name] = field.big ? sum : Number(sum);
  }
}

class SetEditor implements SetHandle<unknown> {
  constructor(private readonly cell: Cell) {}

  private change(op: string, does: 'add' | 'delete', values: unknown[]): void {
    const { name } = this.cell.column;
    for (const value of values) {
      const json = this.cell.json(value);
      this.cell.edit(op, `,"value":${json}`);
      const row = this.cell.draft();
      if (!row) continue;
      const next = new Set(row[name] as Set<unknown>);
      next[does](this.cell.read(json));
      row[name] = next;
    }
  }

  add(...values: unknown[]): void {
    this.change('SetInsert', 'add', values);
  }

  delete(...values: unknown[]): void {
    this.change('SetErase', 'delete', values);
  }

  clear(): void {
    this.cell.edit('Clear');
    const row = this.cell.draft();
    if (row) row[this.cell.column.name] = new Set();
  }
}

class DictEditor implements DictHandle<unknown> {
  constructor(private readonly cell: Cell) {}

  private change(make: (entries: Record<string, unknown>) => void): void {
    const row = this.cell.draft();
    if (!row) return;
    const entries = Object.assign(Object.create(null), row[this.cell.column.name]);
    make(entries);
    row[this.cell.column.name] = Object.freeze(entries);
  }

  set(at: string, value: unknown): void {
    const json = this.cell.json(value);
    this.cell.edit('DictUpdate', `,"at":${atJson(at, this.cell.where)},"value":${json}`);
    this.change((entries) => { entries[wellFormed(at)] = this.cell.read(json); });
  }

  delete(at: string): void {
    this.cell.edit('DictErase', `,"at":${atJson(at, this.cell.where)}`);
    this.change((entries) => { delete entries[wellFormed(at)]; });
  }

  clear(): void {
    this.cell.edit('Clear');
    const row = this.cell.draft();
    if (row) row[this.cell.column.name] = Object.freeze(Object.create(null));
  }
}

/** The verbs on a list: each edit says its place and the list's length before it. */
class ListEditor implements ListHandle<unknown> {
  private readonly column: string;

  constructor(private readonly cell: Cell) {
    this.column = cell.column.name;
    cell.hasRead();
  }

  /** The elements, as a list of this transaction's own, until they are read. */
  private own(): unknown[] {
    const row = this.cell.draft();
    if (!row) return [];
    const elements = row[this.column] as unknown[];
    if (!Object.isFrozen(elements)) return elements;
    const copy = elements.slice();
    row[this.column] = copy;
    return copy;
  }

  get length(): number {
    return ((this.cell.draft()?.[this.column] as unknown[] | undefined) ?? []).length;
  }

  private place(place: number, most: number): number {
    if (Number.isInteger(place) && place >= 0 && place <= most) return place;
    throw new InvalidValue(`${this.cell.where}: no place ${place} among ${this.length} elements`, this.cell.where);
  }

  push(...values: unknown[]): void {
    this.insert(this.length, ...values);
  }

  insert(place: number, ...values: unknown[]): void {
    this.place(place, this.length);
    const own = this.own();
    for (const value of values) {
      const json = this.cell.json(value);
      this.cell.edit('ListInsert', `,"place":${place},"prior":${own.length},"value":${json}`);
      own.splice(place, 0, this.cell.read(json));
      place += 1;
    }
  }

  replace(place: number, value: unknown): void {
    this.place(place, this.length - 1);
    const own = this.own();
    const json = this.cell.json(value);
    this.cell.edit('ListUpdate', `,"place":${place},"prior":${own.length},"value":${json}`);
    own[place] = this.cell.read(json);
  }

  remove(place: number, count = 1): void {
    for (; count > 0; count -= 1) {
      this.place(place, this.length - 1);
      const own = this.own();
      this.cell.edit('ListErase', `,"place":${place},"prior":${own.length}`);
      own.splice(place, 1);
    }
  }

  removeValue(value: unknown): boolean {
    const element = this.cell.read(this.cell.json(value));
    const place = this.own().findIndex((it) => isSame(it, element));
    if (place < 0) return false;
    this.remove(place);
    return true;
  }

  move(from: number, to: number): void {
    const own = this.own();
    const value = own[this.place(from, own.length - 1)];
    this.place(to, own.length - 1);
    this.remove(from);
    this.insert(to, value);
  }

  clear(): void {
    this.cell.edit('Clear');
    const row = this.cell.draft();
    if (row) row[this.column] = [];
  }
}
