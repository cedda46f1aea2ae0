// The schema, declared once in code: tables, their keys and their columns. It is applied as additions alone.

export type Kind = 'Int' | 'Bool' | 'Text' | 'Bytes' | 'Time' | 'Uuid' | 'Link';
export type Shape = 'One' | 'List' | 'Set' | 'Dict';
export type KeyKind = 'Int' | 'Text' | 'Uuid';
/** A key in code: of an integer a number (a bigint beyond 2^53), of a text or a uuid a string. */
export type Key = string | number | bigint;

type Roles = 'key' | 'autoKey' | 'one' | 'counter' | 'list' | 'set' | 'dict';
declare const reads: unique symbol;
/** A field of a table: its key, or a column that reads as `Read`. */
export interface Field<Read, Role extends Roles, Element = Read> {
  readonly [reads]?: { read: Read; role: Role; element: Element };
  readonly role: Role;
  readonly kind: Kind;
  readonly big: boolean;
  readonly nullable: boolean;
  readonly target: string | null;
}

type Fields = { readonly [name: string]: Field<any, any, any> };
export type Tables = { readonly [table: string]: Fields };

interface More {
  readonly nullable?: boolean;
  readonly big?: boolean;
  readonly target?: string;
}
const field = <R, Role extends Roles, E = R>(role: Role, kind: Kind, { nullable: may = false, big = false, target }: More = {}): Field<R, Role, E> =>
  ({ role, kind, nullable: may, big, target: target ?? null });

/** The key of a table. */
export const key = {
  /** A uuid, which `create` draws where none is given. */
  uuid: () => field<string, 'autoKey'>('autoKey', 'Uuid'),
  text: () => field<string, 'key'>('key', 'Text'),
  int: () => field<number, 'key'>('key', 'Int'),
};

export const text = () => field<string, 'one'>('one', 'Text');
/** An integer that code reads as a number: exact between -2^53 and 2^53. */
export const int = () => field<number, 'one'>('one', 'Int');
/** An integer of 64 bits. */
export const bigint = () => field<bigint, 'one'>('one', 'Int', { big: true });
export const bool = () => field<boolean, 'one'>('one', 'Bool');
export const bytes = () => field<Uint8Array, 'one'>('one', 'Bytes');
/** A moment, in milliseconds. */
export const time = () => field<Date, 'one'>('one', 'Time');
export const uuid = () => field<string, 'one'>('one', 'Uuid');
/** A number to which devices add while they are apart: all additions count. */
export const counter = () => field<number, 'counter'>('counter', 'Int');
/** The key of an object of that table, or null. The object may be erased, or not there yet. */
export const link = <K extends Key = string>(table: string) => field<K | null, 'one'>('one', 'Link', { nullable: true, target: table });
/** A column of one value that may be null. */
export const nullable = <R>(of: Field<R, 'one'>) => ({ ...of, nullable: true } as unknown as Field<R | null, 'one'>);
/** A column of many values, each as this one. Links in it are never null. */
const many = (of: Field<any, 'one'>, role: Roles): unknown => ({ ...of, role, nullable: of.kind !== 'Link' && of.nullable });
export const list = <R>(of: Field<R, 'one'>) => many(of, 'list') as Field<readonly R[], 'list', R>;
/** Of numbers, texts, flags, uuids and links. */
export const set = <R extends Key | boolean | null>(of: Field<R, 'one'>) => many(of, 'set') as Field<ReadonlySet<R>, 'set', R>;
export const dict = <R>(of: Field<R, 'one'>) => many(of, 'dict') as Field<{ readonly [at: string]: R }, 'dict', R>;

// ---- the types that follow

type ReadOf<F> = F extends Field<infer R, any, any> ? R : never;
type RoleOf<F> = F extends Field<any, infer Role, any> ? Role : never;
type ElementOf<F> = F extends Field<any, any, infer E> ? E : never;
type Named<T, Role> = { [C in keyof T]: RoleOf<T[C]> extends Role ? C : never }[keyof T];
/** An object as it is read. It never changes: a later state is another value. */
export type ObjectOf<T> = { readonly [C in keyof T]: ReadOf<T[C]> };
export type KeyOf<T> = ReadOf<T[Named<T, 'key' | 'autoKey'>]>;
/** What `update` sets: columns of one value. What is undefined stays. */
export type Patch<T> = { [C in Named<T, 'one' | 'counter'>]?: ReadOf<T[C]> | undefined };
type Given<F> = RoleOf<F> extends 'dict' ? { readonly [at: string]: ElementOf<F> } : Iterable<ElementOf<F>>;
type Collections<T> = { [C in Named<T, 'list' | 'set' | 'dict'>]?: Given<T[C]> | undefined };
/** What `create` takes: a key that it can't draw, and any columns. */
export type New<T> = Patch<T> & Collections<T> & { [C in Named<T, 'autoKey'>]?: ReadOf<T[C]> } & { [C in Named<T, 'key'>]: ReadOf<T[C]> };
export type Handles<T> = {
  readonly [C in Named<T, 'counter' | 'list' | 'set' | 'dict'>]: RoleOf<T[C]> extends 'counter' ? CounterHandle
    : RoleOf<T[C]> extends 'list' ? ListHandle<ElementOf<T[C]>>
    : RoleOf<T[C]> extends 'set' ? SetHandle<ElementOf<T[C]>> : DictHandle<ElementOf<T[C]>>;
};

export interface CounterHandle { add(amount: number | bigint): void }
export interface ListHandle<E> {
  readonly length: number;
  push(...values: E[]): void;
  insert(place: number, ...values: E[]): void;
  replace(place: number, value: E): void;
  remove(place: number, count?: number): void;
  /** Takes the first element equal to this out; false where there is none. */
  removeValue(value: E): boolean;
  /** An erasure and an insertion: the merge core has no move, so two devices that move one element leave it twice. */
  move(from: number, to: number): void;
  clear(): void;
}
export interface SetHandle<E> { add(...values: E[]): void; delete(...values: E[]): void; clear(): void }
export interface DictHandle<E> { set(at: string, value: E): void; delete(at: string): void; clear(): void }

// ---- the schema at work

export interface ColumnForm { readonly name: string; readonly field: Field<unknown, any>; readonly shape: Shape }
export interface TableForm {
  readonly name: string;
  readonly keyName: string;
  readonly keyKind: KeyKind;
  readonly columns: readonly ColumnForm[];
  readonly column: ReadonlyMap<string, ColumnForm>;
}

const isKey = ({ role }: Field<any, any, any>): boolean => role === 'key' || role === 'autoKey';
const SHAPES: Record<string, Shape> = { one: 'One', counter: 'One', list: 'List', set: 'Set', dict: 'Dict' };
const bytesIn = (name: string) => new TextEncoder().encode(name).length;

/** Declares the schema. */
export function defineSchema<T extends Tables>(tables: T): Schema<T> {
  return new Schema(tables);
}

export class Schema<T extends Tables = Tables> {
  readonly tables: ReadonlyMap<string, TableForm>;

  constructor(readonly declared: T) {
    this.tables = new Map(Object.entries(declared).map(([name, fields]) => [name, formOf(name, fields)]));
    for (const { name, columns } of this.tables.values()) {
      for (const { name: column, field: { target } } of columns) {
        if (target !== null && !this.tables.has(target)) throw new TypeError(`${name}.${column} links to ${target}, which is no table here`);
      }
    }
  }
}

function formOf(name: string, fields: Fields): TableForm {
  const entries = Object.entries(fields);
  const keys = entries.filter(([, it]) => isKey(it));
  if (keys.length !== 1) throw new TypeError(`table ${name} needs one key`);
  const [keyName, keyField] = keys[0]!;
  const plain = entries.filter(([, it]) => !isKey(it));
  const columns = plain.map(([column, it]): ColumnForm => ({ name: column, field: it, shape: SHAPES[it.role]! }));
  for (const it of [name, ...columns.map((column) => column.name)]) {
    if (it === '__proto__') throw new TypeError('a name cannot be __proto__');
    if (bytesIn(it) < 1 || bytesIn(it) > 63) throw new TypeError(`the name ${JSON.stringify(it)} has not 1 to 63 bytes`);
  }
  return { name, keyName, keyKind: keyField.kind as KeyKind, columns, column: new Map(columns.map((it) => [it.name, it])) };
}
