// Queries over a tab's objects, and live ones: what changed is put into the result at its place, and the rest stays as it is.

import { call, kept, tried } from './call.js';
import { isSame, type Row, type RowChange, type TableRows } from './mirror.js';
import type { Key, KeyOf, ObjectOf } from './schema.js';
import { spelledKey } from './values.js';

/** What a change is to a result, also behind its `limit`. */
export interface Changes<R> {
  readonly inserted: readonly R[];
  readonly updated: readonly { readonly before: R; readonly after: R }[];
  readonly removed: readonly R[];
}
export type Stop = () => void;
type Test<R> = (row: R) => boolean;
type Compare<R> = (a: R, b: R) => number;
export type Order<R> = (keyof R & string) | `-${keyof R & string}` | Compare<R>;

const rank = (it: unknown): number => (it === null || it === undefined ? 0 : typeof it === 'boolean' ? 1 : typeof it === 'string' ? 3 : 2);
export function compareValues(a: any, b: any): number {
  const by = rank(a) - rank(b);
  return by !== 0 ? by : a < b ? -1 : a > b ? 1 : 0;
}

/** Takes the changes of a table into account, and answers what is to be told of them, if anything. */
type Listener = (changes: RowChange[]) => (() => void) | null;

/**
 * What is told when something changed: the tables' changes, once for each transaction or message. All results are brought up to date before
 * anybody is told, so a callback that reads other queries finds them as they are now.
 */
export class Feed {
  private readonly listeners = new Map<string, Set<Listener>>();
  readonly versions = new Map<string, number>();
  /** How often something was told. Who begins to listen in a callback has seen what is told then. */
  turn = 0;

  listen(table: string, listener: Listener): Stop {
    let all = this.listeners.get(table);
    if (!all) this.listeners.set(table, (all = new Set()));
    all.add(listener);
    return () => void all!.delete(listener);
  }

  tell(changes: RowChange[]): void {
    const byTable = new Map<string, RowChange[]>();
    for (const it of changes) {
      const same = byTable.get(it.table);
      if (same) same.push(it);
      else byTable.set(it.table, [it]);
    }
    this.turn += 1;
    for (const table of byTable.keys()) this.versions.set(table, (this.versions.get(table) ?? 0) + 1);
    const telling: (() => void)[] = [];
    for (const [table, some] of byTable) {
      for (const listener of this.listeners.get(table) ?? []) {
        const tell = tried(() => listener(some));
        if (tell) telling.push(tell);
      }
    }
    for (const tell of telling) call(tell);
  }
}

interface Plan<R> {
  readonly equal: readonly (readonly [string, unknown])[];
  readonly tests: readonly Test<R>[];
  readonly orders: readonly Compare<R>[];
  readonly most: number;
}

const EVERYTHING: Plan<any> = { equal: [], tests: [], orders: [], most: Infinity };

export class Query<T> implements AsyncIterable<readonly ObjectOf<T>[]> {
  private live: Live<any> | null = null;
  private cached: { version: number; rows: readonly any[] } | null = null;

  constructor(protected readonly rows: TableRows, protected readonly feed: Feed, private readonly plan: Plan<any> = EVERYTHING) {}

  private with(more: Partial<Plan<any>>): Query<T> {
    return new Query<T>(this.rows, this.feed, { ...this.plan, ...more });
  }

  /** By values that columns have (found by an index), or by a test. A test that asks the clock is asked again where its object changes. */
  where(test: { readonly [C in keyof ObjectOf<T>]?: ObjectOf<T>[C] } | Test<ObjectOf<T>>): Query<T> {
    if (typeof test === 'function') return this.with({ tests: [...this.plan.tests, test] });
    const { form } = this.rows;
    const equal = Object.entries(test).map(([name, value]) => [this.known(name), name === form.keyName ? spelledKey(form, value as Key) : value] as const);
    return this.with({ equal: [...this.plan.equal, ...equal] });
  }

  private known(name: string): string {
    const { form } = this.rows;
    if (name !== form.keyName && !form.column.has(name)) throw new TypeError(`${form.name} has no column ${name}`);
    return name;
  }

  /** By columns, one after the other; `-name` the other way round. Objects that are equal in them stand by their keys. */
  sortBy(...orders: Order<ObjectOf<T>>[]): Query<T> {
    const made = orders.map((it): Compare<any> => {
      if (typeof it === 'function') return it;
      const isBack = it.startsWith('-') && !this.rows.form.column.has(it);
      const name = this.known(isBack ? it.slice(1) : it);
      return isBack ? (a, b) => compareValues(b[name], a[name]) : (a, b) => compareValues(a[name], b[name]);
    });
    return this.with({ orders: [...this.plan.orders, ...made] });
  }

  /** The first so many, in the order of `sortBy`. */
  limit(most: number): Query<T> {
    if (!(most >= 0)) throw new RangeError(`a limit is 0 or more, and ${most} isn't`);
    return this.with({ most });
  }

  /** The objects as they are now: the same array until something in it changes. */
  toArray(): readonly ObjectOf<T>[] {
    if (this.live) return this.live.rows;
    const version = this.feed.versions.get(this.rows.form.name) ?? 0;
    if (this.cached?.version !== version) {
      const found = find(this.rows, this.plan, comparing(this.rows, this.plan));
      this.cached = { version, rows: cut(found, this.plan.most) };
    }
    return this.cached.rows;
  }

  first(): ObjectOf<T> | undefined {
    return this.toArray()[0];
  }

  count(): number {
    return this.toArray().length;
  }

  /** Calls back now and after each change of the result, until it is stopped. `changes` is null now, and where a test had thrown before. */
  observe(callback: (rows: readonly ObjectOf<T>[], changes: Changes<ObjectOf<T>> | null) => void): Stop {
    const live: Live<any> = this.live ?? new Live(this.rows, this.feed, this.plan, () => { if (this.live === live) this.live = null; });
    this.live = live;
    const stop = live.listen(callback as Told<Row>);
    try {
      callback(live.rows as any, null);
    } catch (error) {
      stop();
      throw error;
    }
    return stop;
  }

  /** A store for Svelte and RxJS, and for React's `useSyncExternalStore(query.subscribe, query.getSnapshot)`. */
  readonly subscribe = (callback: (rows: readonly ObjectOf<T>[]) => void): Stop => this.observe(callback);
  readonly getSnapshot = (): readonly ObjectOf<T>[] => this.toArray();

  /** The result, and each later one; a consumer that is slow misses those between. */
  async *[Symbol.asyncIterator](): AsyncIterator<readonly ObjectOf<T>[]> {
    let latest: readonly ObjectOf<T>[] | null = null;
    let wake: () => void = () => {};
    const stop = this.observe((rows) => { latest = rows; wake(); });
    try {
      for (;;) {
        if (latest === null) await new Promise<void>((done) => { wake = done; });
        const rows: readonly ObjectOf<T>[] = latest!;
        latest = null;
        yield rows;
      }
    } finally {
      stop();
    }
  }
}

const cut = <R>(rows: readonly R[], most: number): readonly R[] => Object.freeze(rows.length > most ? rows.slice(0, most) : rows);

function comparing(rows: TableRows, { orders }: Plan<any>): Compare<any> {
  const { keyName } = rows.form;
  const byKey: Compare<any> = (a, b) => compareValues(a[keyName], b[keyName]);
  if (orders.length === 0) return byKey;
  return (a, b) => {
    for (const order of orders) {
      const by = order(a, b);
      if (by !== 0) return by;
    }
    return byKey(a, b);
  };
}

function matches({ equal, tests }: Plan<any>, row: any): boolean {
  for (const [name, value] of equal) if (!isSame(row[name], value)) return false;
  for (const test of tests) if (!test(row)) return false;
  return true;
}

/** The objects among which those of a plan are: by an index of a column, where a plain value of one is asked for. */
function candidates(rows: TableRows, { equal }: Plan<any>): Iterable<Row> {
  const plain = equal.find(([, value]) => !(value instanceof Object));
  if (!plain) return rows.rows.values();
  const [name, value] = plain;
  if (name !== rows.form.keyName) return rows.index(name).get(value) ?? [];
  const row = rows.rows.get(value as Key);
  return row ? [row] : [];
}

function find(rows: TableRows, plan: Plan<any>, compare: Compare<any>): any[] {
  const from = candidates(rows, plan);
  const found: any[] = [];
  for (const row of from) if (matches(plan, row)) found.push(row);
  return found.sort(compare);
}

type Told<R> = (rows: readonly R[], changes: Changes<R> | null) => void;

/** The result of a query that is kept up to date. */
class Live<R extends Row> {
  rows: readonly R[] = [];
  private all: R[] = [];
  /** Those of the result by their keys: a test that asks the clock may say otherwise of an object by now than when it came in. */
  private members = new Map<Key, R>();
  private readonly compare: Compare<R>;
  private readonly listeners = new Set<Told<R>>();
  private readonly stop: Stop;
  /** Whether a test threw, so that all is found anew. */
  private isStale = false;

  constructor(private readonly table: TableRows, feed: Feed, private readonly plan: Plan<R>, private readonly ended: () => void) {
    this.compare = comparing(table, plan);
    this.findAll();
    this.stop = feed.listen(table.form.name, (changes) => this.take(changes));
  }

  private findAll(): void {
    this.all = find(this.table, this.plan, this.compare);
    this.members = new Map(this.all.map((row) => [row[this.table.form.keyName] as Key, row]));
    this.rows = cut(this.all.slice(), this.plan.most);
  }

  listen(listener: Told<R>): Stop {
    const stop = kept(this.listeners, listener);
    return () => {
      stop();
      if (this.listeners.size > 0) return;
      this.stop();
      this.ended();
    };
  }

  private take(changes: RowChange[]): (() => void) | null {
    const wasStale = this.isStale;
    this.isStale = true;
    let changed: Changes<R> | null = null;
    if (wasStale) this.findAll();
    else {
      changed = this.sorted(changes);
      this.edit(changed);
    }
    this.isStale = false;
    if (changed && changed.inserted.length + changed.updated.length + changed.removed.length === 0) return null;
    return () => {
      for (const listener of [...this.listeners]) if (this.listeners.has(listener)) call(listener, this.rows, changed);
    };
  }

  /** What the changes of the table are to the result. */
  private sorted(changes: RowChange[]): Changes<R> {
    const inserted: R[] = [], removed: R[] = [], updated: { before: R; after: R }[] = [];
    for (const { key, after } of changes as { key: Key; after: R | undefined }[]) {
      const before = this.members.get(key);
      const is = after !== undefined && matches(this.plan, after);
      if (before && is) updated.push({ before, after });
      else if (before) removed.push(before);
      else if (is) inserted.push(after);
    }
    return { inserted, updated, removed };
  }

  private edit({ inserted, updated, removed }: Changes<R>): void {
    const out = [...removed, ...updated.map((it) => it.before)], into = [...inserted, ...updated.map((it) => it.after)];
    if (out.length + into.length === 0) return;
    const { keyName } = this.table.form;
    for (const row of out) this.members.delete(row[keyName] as Key);
    for (const row of into) this.members.set(row[keyName] as Key, row);
    if (out.length + into.length > 32 && (out.length + into.length) * 8 > this.all.length) {
      this.all = [...this.members.values()].sort(this.compare);
    } else {
      for (const row of out) this.all.splice(this.placeOf(row), 1);
      for (const row of into) this.all.splice(this.place(row), 0, row);
    }
    this.rows = cut(this.all.slice(), this.plan.most);
  }

  private place(row: R): number {
    let low = 0, high = this.all.length;
    while (low < high) {
      const middle = (low + high) >> 1;
      if (this.compare(this.all[middle]!, row) < 0) low = middle + 1;
      else high = middle;
    }
    return low;
  }

  /** Where an object of the result is: where an order asks the clock, that may not be its place any more. */
  private placeOf(row: R): number {
    const place = this.place(row);
    return this.all[place] === row ? place : this.all.indexOf(row);
  }
}

/** A table: its objects by key, and queries over them. */
export class Table<T> extends Query<T> {
  get(key: KeyOf<T>): ObjectOf<T> | undefined {
    const { rows, form } = this.rows;
    return (rows.get(key as Key) ?? rows.get(spelledKey(form, key as Key))) as ObjectOf<T> | undefined;
  }

  has(key: KeyOf<T>): boolean {
    return this.get(key) !== undefined;
  }

  override count(): number {
    return this.rows.rows.size;
  }

  /** Calls back now and after each change of one object; undefined while it isn't there. */
  observeOne(key: KeyOf<T>, callback: (object: ObjectOf<T> | undefined) => void): Stop {
    const mine = spelledKey(this.rows.form, key as Key);
    callback(this.get(key));
    return this.feed.listen(this.rows.form.name, (changes) => {
      const change = changes.find((it) => it.key === mine);
      return change ? () => callback(change.after as ObjectOf<T> | undefined) : null;
    });
  }
}
