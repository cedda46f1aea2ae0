// What may come in place of an answer. Each error says what to do.

import type { Conflict, Problem } from './problems.js';

/** Why a client refuses: docs/FORMATS.md, "Refusals by number". */
export const REASONS = [
  'None', 'NotBorn', 'AlreadyBorn', 'NotNamed', 'TooLarge', 'NumbersFull', 'OldForm', 'NotSubscribed', 'Break', 'NotMine', 'IdentDiffers',
  'Gap', 'BadBody', 'OldEntry', 'Mismatch', 'Forked', 'NotApplicable', 'WasRefused', 'Subscribed', 'TooLate', 'Skips', 'BadChange',
] as const;
export type Reason = (typeof REASONS)[number];

const CODES: Record<number, string> = {
  1: 'the tables differ',
  2: 'the columns differ',
  3: 'the sizes differ',
  4: 'a size is out of range',
  10: 'the table exists',
  11: 'no such table',
  12: 'the column exists',
  13: 'a link column must be nullable if and only if it is single',
  14: 'no such column',
  20: 'the column has another shape',
  21: "the value doesn't fit the column",
  23: 'the list has another length',
  30: 'no such object',
  31: "the key is of another kind than the table's",
  60: "the ident wasn't given by this server",
  61: "not the client's next number: the file was copied or restored",
  62: 'a base before the last one: the file was copied or restored',
  63: "ahead of the server's history: its file was restored, or it is another server",
  64: 'the history is full',
  65: 'all idents are given',
  67: 'the history needs form 2',
  68: 'the ident is retired',
  69: "an ident can't retire itself",
  70: 'the ident was retired for another one',
  71: 'the server gave up the history that the client needs',
};
export const wordsOfCode = (code: number): string => CODES[code] ?? (code >= 40 && code <= 53 ? 'no changeset' : `code ${code}`);

export class RealmError extends Error {
  constructor(message: string, options?: { cause?: unknown }) {
    super(message, options as ErrorOptions);
    this.name = new.target.name;
  }
}

/** The client refuses, and is as before. */
export class Refused extends RealmError {
  /** Of a Mismatch: which definition differs, where it is known. */
  conflict: Conflict | null = null;

  constructor(readonly reason: Reason, readonly details: readonly [number, number, number]) {
    super(Refused.words(reason, details));
  }

  private static words(reason: Reason, [first, second, third]: readonly [number, number, number]): string {
    switch (reason) {
      case 'Break': return `edit ${first} doesn't act: ${wordsOfCode(second)}`;
      case 'WasRefused': return `the server refused change ${first}: ${wordsOfCode(second)}`;
      case 'Mismatch': return `entry ${first} of the history and the unsent change ${second} can't be merged: ${wordsOfCode(third)}`;
      case 'TooLarge': return 'a transaction has at most 65,536 edits and 4,194,304 bytes: write it in parts';
      case 'NotSubscribed': return `edit ${first} is about a table that this client didn't name`;
      default: return `refused: ${reason} ${first} ${second} ${third}`;
    }
  }
}

/** An edit of a transaction doesn't act on the objects; nothing of the transaction was done. */
export class BrokenEdit extends Refused {
  readonly table: string;
  /** Null where the edit is of a whole object. */
  readonly column: string | null;

  /** The edit's place in the transaction, why it breaks (docs/FORMATS.md, "Outcome lines"), and the edit as JSON. */
  constructor(readonly place: number, readonly code: number, readonly edit: string) {
    super('Break', [place, code, 0]);
    this.message += `: ${edit}`;
    const { table, column = null } = JSON.parse(edit) as { table: string; column?: string };
    this.table = table;
    this.column = column;
  }
}

/** A column, or a key, of a table. */
export class ColumnName {
  constructor(readonly table: string, readonly column: string) {}

  toString(): string {
    return `${this.table}.${this.column}`;
  }
}

/** A value that can't stand in its column, a key that is none: thrown while the transaction is written, before anything is done. */
export class InvalidValue extends RealmError {
  /** Null where it is about no table, as in a transaction that has ended. */
  readonly table: string | null;
  readonly column: string | null;

  constructor(message: string, at: ColumnName | null = null) {
    super(message);
    this.table = at?.table ?? null;
    this.column = at?.column ?? null;
  }
}
/** The declared schema and the one of the file define a table or a column differently. */
export class SchemaConflict extends RealmError {
  constructor(readonly table: string, readonly column: string | null, readonly declared: string, readonly found: string) {
    const name = column === null ? table : `${table}.${column}`;
    super(`${name} is declared as ${declared}, and is ${found} in the data. A definition never changes: give the changed one a new name`);
  }
}
/** The storage failed. What was answered before stands; the database was opened again. */
export class StorageFailed extends RealmError {}
/** The storage is full. Nothing of the transaction stands; with room made it can be written again. */
export class StorageFull extends StorageFailed {}
/** Another process, or another page without Web Locks, has the files. */
export class Busy extends RealmError {}
/** The file is another one's, or damaged; it is as it was. */
export class BadFile extends RealmError {
  constructor(readonly place: number) {
    super(`the file is no journal of a client, from byte ${place} on`);
  }
}
/** The file is encrypted, and the key isn't the one that it was written with, or none was given. It is as it was. */
export class WrongKey extends RealmError {}
/** The server refuses this device or its token. */
export class Unauthorized extends RealmError {}
/** The server's history was restored, and is of another generation than this client says; which one, where the server told it. */
export class Outdated extends RealmError {
  constructor(readonly generation: number | null) {
    super(`the history was restored on the server${generation === null ? '' : ` and is of generation ${generation}`}`);
  }
}
/** Sync stopped for this, and goes on once it is settled: `problem` says why. */
export class NeedsAttention extends RealmError {
  constructor(readonly problem: Problem) {
    super(`sync needs attention: ${problem.text}`);
  }
}
/** Sync didn't come to the end of the history in so many messages. It is tried again later. */
export class Endless extends RealmError {}
export class OutOfMemory extends RealmError {}
export class Closed extends RealmError {}
export class BadRequest extends RealmError {}

/** What an error of a storage is told as. */
export function storageError(error: unknown): RealmError {
  if (error instanceof RealmError) return error;
  const { name, code, message } = (error ?? {}) as { name?: string; code?: string; message?: string };
  return name === 'QuotaExceededError' || code === 'ENOSPC'
    ? new StorageFull('the storage is full: make room, and try again', { cause: error })
    : new StorageFailed(`the storage failed: ${message ?? String(error)}`, { cause: error });
}

/** What an error is called on its way between threads. */
export interface ErrorForm { name: string; message: string; fields: Record<string, unknown> }
const CLASSES: Record<string, new (...words: never[]) => RealmError> = {
  RealmError, Refused, BrokenEdit, InvalidValue, SchemaConflict, StorageFailed, StorageFull, Busy, BadFile, WrongKey, Unauthorized,
  Outdated, NeedsAttention, Endless, OutOfMemory, Closed, BadRequest,
};
export function formOfError(error: unknown): ErrorForm {
  const isError = error instanceof Error;
  const fields: Record<string, unknown> = isError ? { ...error } : {};
  delete fields['cause'];
  delete fields['name'];
  return { name: isError ? error.name : 'RealmError', message: isError ? error.message : String(error), fields };
}
export function errorOfForm({ name, message, fields }: ErrorForm): RealmError {
  const error = Object.setPrototypeOf(new Error(message), (CLASSES[name] ?? RealmError).prototype) as RealmError;
  Object.defineProperty(error, 'name', { value: CLASSES[name] ? name : 'RealmError', writable: true, configurable: true });
  return Object.assign(error, fields);
}

/** The error of a problem: of schemas that differ one that names the column. */
export function errorOfProblem(problem: Problem): RealmError {
  const { conflict } = problem;
  return conflict ? new SchemaConflict(conflict.table, conflict.column, conflict.declared, conflict.found) : new NeedsAttention(problem);
}
