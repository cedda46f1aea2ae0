// Why sync stops, and what the application or its user can do.

import { Refused, wordsOfCode, type Outdated } from './errors.js';

/**
 * - `schema`: the application's tables or columns differ from those of the history.
 * - `retired`: another client has taken this one's place.
 * - `restored`: this device's files were copied, or restored from a backup.
 * - `trimmed`: the server gave up the part of the history that this client needs next.
 * - `otherServer`: the server has another history than the one this client knows, or an older state of it.
 * - `full`: a limit of the history or of a transaction.
 * - `damaged`: a reply that can't be taken, twice.
 * - `unauthorized`: the server refuses this device or its token.
 * - `storage`: this device's disk is full, or failed. Sync tries again by itself.
 */
export type ProblemKind = 'schema' | 'retired' | 'restored' | 'trimmed' | 'otherServer' | 'full' | 'damaged' | 'unauthorized' | 'storage';

/** A table or a column that is defined in two ways: of a table `column` is null. */
export interface Conflict {
  readonly table: string;
  readonly column: string | null;
  readonly declared: string;
  readonly found: string;
}

export interface Problem {
  readonly kind: ProblemKind;
  readonly text: string;
  /** Whether a new client can take over, with what is unsent here: `db.recover()`. */
  readonly isRecoverable: boolean;
  /** Of a `schema`: which definition differs, where it is known. */
  readonly conflict?: Conflict | null;
  /** Of an `otherServer`: the generation of its history, where it told one. */
  readonly generation?: number | null;
}

export const problem = (kind: ProblemKind, text: string, isRecoverable: boolean): Problem => ({ kind, text, isRecoverable });

const BY_CODE: Record<number, readonly [ProblemKind, boolean]> = {
  1: ['schema', true],
  2: ['schema', true],
  4: ['full', false],
  60: ['otherServer', true],
  61: ['restored', true],
  62: ['restored', true],
  63: ['otherServer', true],
  64: ['full', false],
  65: ['full', false],
  68: ['retired', true],
  70: ['retired', true],
  71: ['trimmed', false], // a new client would need it too
};

/**
 * What a client's refusal of a reply asks for: docs/EMBEDDING.md, "What each answer asks for". `again` is a question for the history, which
 * is what a client sends next after any refusal.
 */
export function problemOf(error: Refused, isRepeated: boolean): Problem | 'again' | 'upgrade' {
  const [first, second, third] = error.details;
  switch (error.reason) {
    case 'NotMine': return 'again';
    case 'OldEntry': return 'upgrade';
    case 'Mismatch': return problem('schema', `the history and the unsent change ${second} can't be merged: ${wordsOfCode(third)}`, true);
    case 'Forked': return problem('restored', `the history has a change ${first} of this device that its file doesn't have`, true);
    case 'IdentDiffers': return problem('otherServer', 'the server knows this device by another number', true);
    case 'WasRefused': {
      if (second === 67) return 'upgrade';
      const [kind, can] = BY_CODE[second] ?? ['damaged', true];
      // The reply to the question that comes next says which column.
      if (kind === 'schema' && !isRepeated) return 'again';
      return problem(kind, `the server refused change ${first}: ${wordsOfCode(second)}`, can);
    }
    default: return isRepeated ? problem('damaged', error.message, true) : 'again';
  }
}

/** The problem of a server that says that its history was restored. */
export const outdated = ({ message, generation }: Outdated): Problem => ({ kind: 'otherServer', text: message, isRecoverable: true, generation });

/** The problems in which a new client takes over by itself. The others are left to a person: what is to be done with another server's
 * history, or with an application that declares another schema, nobody can know here. */
export const isTakenOverByItself = ({ kind, isRecoverable }: Problem): boolean =>
  isRecoverable && (kind === 'retired' || kind === 'restored' || kind === 'damaged');
