// Which definition makes a change and the history not merge: by the two changesets, for a person to read.

import type { Engine } from './engine.js';
import { editsOf } from './messages.js';
import type { Conflict } from './problems.js';

interface Definition {
  readonly op: string;
  readonly table: string;
  readonly key?: string;
  readonly column?: string;
  readonly kind?: string;
  readonly nullable?: boolean;
  readonly shape?: string;
  readonly target?: string;
}

/** A column as errors say it. */
export const wordsOfColumn = ({ kind, nullable, shape, target }: Pick<Definition, 'kind' | 'nullable' | 'shape' | 'target'>): string =>
  `${kind}${nullable ? ' nullable' : ''} ${shape}${target ? ` of ${target}` : ''}`;

const wordsOf = (it: Definition): string => (it.op === 'AddTable' ? `keys of ${it.key}` : wordsOfColumn(it));
const isDefinition = (edit: string): boolean => edit.startsWith('{"op":"AddTable"') || edit.startsWith('{"op":"AddColumn"');
const definitionsIn = (body: Uint8Array): Definition[] => editsOf(body).filter(isDefinition).map((it) => JSON.parse(it) as Definition);

/** The first definition that the unsent change `number` and the entry at `version` of this Download give in two ways. */
export function conflictIn(engine: Engine, message: Uint8Array, version: number, number: number): Conflict | null {
  const entry = engine.entriesOf(message).find((it) => it.version === version);
  const change = entry && [...engine.unsent()].find((it) => it.number === number);
  if (!change) return null;
  const theirs = definitionsIn(entry.body);
  for (const mine of definitionsIn(change.body)) {
    const same = theirs.find((it) => it.op === mine.op && it.table === mine.table && it.column === mine.column);
    if (same && wordsOf(same) !== wordsOf(mine)) {
      return { table: mine.table, column: mine.column ?? null, declared: wordsOf(mine), found: wordsOf(same) };
    }
  }
  return null;
}
