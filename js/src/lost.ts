// What a message took from the changes of this device that weren't in the history yet, as far as it can be seen from outside: by comparing
// what the core says of an object before the message and after it. Nothing is merged here.

import type { Engine } from './engine.js';
import { editsOf } from './messages.js';
import { Status, textOf } from './door.js';
import { parseLine, textOfKey } from './values.js';

/** An object's cells by their columns, in the core's JSON. */
export type Cells = Readonly<Record<string, any>>;

/** An edit of this device that isn't seen any more, in the core's JSON. */
export interface LostForm {
  readonly table: string;
  readonly key: string;
  /** Null where the whole object is gone. */
  readonly column: string | null;
  readonly ms: number;
  readonly why: 'overwritten' | 'erased';
  /** What this device had written: a value, an element, or the value at a key of a dictionary. */
  readonly mine: unknown;
  /** The object's cells as this device had them before. */
  readonly before: Cells;
}

interface Edit {
  readonly op: string;
  readonly table: string;
  readonly key?: unknown;
  readonly column?: string;
  readonly value?: unknown;
  readonly at?: string;
  readonly ms: number;
}
/** Whether two values of the core are one. A link's `resolved` isn't of the value. */
export function isSameValue(one: any, other: any): boolean {
  if (one === other) return true;
  if (typeof one !== 'object' || typeof other !== 'object' || one === null || other === null) return false;
  const names = new Set([...Object.keys(one), ...Object.keys(other)]);
  names.delete('resolved');
  return [...names].every((name) => isSameValue(one[name], other[name]));
}

const countOf = (list: readonly unknown[], value: unknown): number => list.filter((it) => isSameValue(it, value)).length;
const has = (list: readonly unknown[], value: unknown): boolean => list.some((it) => isSameValue(it, value));

/** Whether an edit was seen in its cell before, and isn't after. `others` are what other devices did to the cell. */
function isLost(edit: Edit, before: any, after: any, others: readonly Edit[]): boolean {
  switch (edit.op) {
    // A number to which others added has changed too, and nothing is lost.
    case 'Update':
      return isSameValue(before, edit.value) && !isSameValue(after, edit.value) && others.some(({ op }) => op === 'Update' || op === 'CreateObject');
    case 'ListInsert':
    case 'ListUpdate': return countOf(after, edit.value) < countOf(before, edit.value);
    case 'SetInsert': return has(before, edit.value) && !has(after, edit.value);
    case 'SetErase': return !has(before, edit.value) && has(after, edit.value);
    case 'DictUpdate': return isSameValue(before[edit.at!], edit.value) && !isSameValue(after[edit.at!], edit.value);
    case 'DictErase': return !Object.hasOwn(before, edit.at!) && Object.hasOwn(after, edit.at!);
    default: return false;
  }
}

/** Where an edit acts: the last one of a place is the one that was seen. */
const spotOf = ({ op, column, value, at }: Edit): string => {
  if (op.startsWith('Set') || op === 'ListInsert' || op === 'ListUpdate') return `${column}=${JSON.stringify(value)}`;
  return `${column}@${at ?? ''}`;
};

interface Lost {
  readonly edit: Edit;
  readonly why: LostForm['why'];
}

function lostOf(edits: readonly Edit[], others: readonly Edit[], before: Cells, after: Cells | null): Lost[] {
  const last = edits[edits.length - 1]!;
  if (!after) return edits.some((it) => it.op === 'EraseObject') ? [] : [{ edit: { ...last, column: undefined }, why: 'erased' }];
  const bySpot = new Map(edits.filter((it) => it.column !== undefined).map((it) => [spotOf(it), it]));
  const lost = [...bySpot.values()].filter((edit) => {
    const column = edit.column!;
    const touched = others.filter((it) => it.column === undefined || it.column === column);
    return column in before && column in after && isLost(edit, before[column], after[column], touched);
  });
  return lost.map((edit) => ({ edit, why: 'overwritten' }));
}

const nameOf = ({ table, key }: Edit): string => JSON.stringify([table, key]);

function byObject(edits: Iterable<Edit>): Map<string, Edit[]> {
  const found = new Map<string, Edit[]>();
  for (const edit of edits) {
    if (edit.key === undefined || edit.op.startsWith('Add') && edit.op !== 'AddInteger') continue;
    const same = found.get(nameOf(edit));
    if (same) same.push(edit);
    else found.set(nameOf(edit), [edit]);
  }
  return found;
}

const editsAt = (body: Uint8Array, ms: bigint): Edit[] => editsOf(body).map((text) => ({ ...(parseLine(text) as Edit), ms: Number(ms) }));

/** What others did to objects in the entries of a Download; nothing where one's bytes are no changeset, which the core then refuses. */
function editsOfOthers(engine: Engine, message: Uint8Array, ident: number): Map<string, Edit[]> {
  const entries = engine.entriesOf(message).filter((it) => it.origin !== ident);
  try {
    return byObject(entries.flatMap(({ body, ms }) => editsAt(body, ms)));
  } catch (error) {
    if (error instanceof RangeError) return new Map();
    throw error;
  }
}

/** Looks at a Download before it is taken, and at the objects that it and this client's unsent changes both touch. */
export class LostEdits {
  private readonly seen: { name: string; mine: Edit[]; others: Edit[]; before: Cells }[] = [];

  constructor(private readonly engine: Engine, message: Uint8Array) {
    const { ident, unsent } = engine.standing();
    const others = unsent > 0 ? editsOfOthers(engine, message, ident) : new Map<string, Edit[]>();
    if (others.size === 0) return;
    for (const [name, mine] of byObject([...engine.unsent()].flatMap(({ body, ms }) => editsAt(body, ms)))) {
      const theirs = others.get(name);
      const before = theirs && this.cells(mine[0]!);
      if (theirs && before) this.seen.push({ name, mine, others: theirs, before });
    }
  }

  private cells(edit: Edit): Cells | null {
    const { status, bytes } = this.engine.reply('O', `{"table":${JSON.stringify(edit.table)},"key":${textOfKey(edit.key)}}`);
    return status === Status.Done ? (parseLine(textOf(bytes)) as { cells: Cells }).cells : null;
  }

  /** What is lost now that the message was taken. */
  found(): LostForm[] {
    return this.seen.flatMap(({ mine, others, before }) =>
      lostOf(mine, others, before, this.cells(mine[0]!)).map(({ edit, why }) => {
        const { table, column = null, ms, value = null } = edit;
        return { table, key: textOfKey(edit.key), column, ms, why, mine: value, before };
      }));
  }
}
