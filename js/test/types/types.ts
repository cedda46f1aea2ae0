// What the types say of a schema, held by tsc: each `@ts-expect-error` is a line that must not compile.
import { bool, counter, defineSchema, dict, int, key, link, list, nullable, openDatabase, set, text, time, type ObjectOf } from 'realm-sync';

const schema = defineSchema({
  lists: { id: key.uuid(), name: text() },
  items: {
    id: key.uuid(), list: link('lists'), title: text(), done: bool(), quantity: counter(), tags: set(text()), steps: list(text()), prices: dict(int()),
    due: nullable(time()), code: int(),
  },
  days: { day: key.int(), note: text() },
});
type Item = ObjectOf<typeof schema.declared.items>;
const token = async (wasRefused: boolean): Promise<string> => (wasRefused ? 'new' : 'old');
const db = await openDatabase({ name: 'x', schema, sync: { url: 'wss://example.org/v1/histories/x', token }, encryptionKey: new Uint8Array(32) });

const item: Item = db.items.get('a')!;
export const title: string = item.title;
export const quantity: number = item.quantity;
export const tags: ReadonlySet<string> = item.tags;
export const due: Date | null = item.due;
export const steps: readonly string[] = item.steps;
export const price: number | undefined = item.prices['x'];
export const list_: string | null = item.list;
// @ts-expect-error no such column
item.nope;
// @ts-expect-error an object never changes
item.title = 'x';

export const id: string = await db.write((tx) => {
  const made = tx.items.create({ title: 'x', tags: ['a'], steps: ['1'], prices: { x: 1 } });
  const at = tx.items.at(made);
  at.quantity.add(1);
  at.tags.add('x');
  at.steps.insert(0, 'y');
  at.prices.set('k', 3);
  tx.items.update(made, { due: null, title: undefined });
  // @ts-expect-error a text, and no number
  tx.items.update(made, { title: 3 });
  // @ts-expect-error not nullable
  tx.items.update(made, { title: null });
  // @ts-expect-error a list is changed by at()
  tx.items.update(made, { steps: [] });
  // @ts-expect-error its elements are texts
  at.steps.push(3);
  // @ts-expect-error a text is no collection
  at.title;
  tx.days.create({ day: 3 });
  // @ts-expect-error it needs its key
  tx.days.create({ note: 'x' });
  tx.items.create();
  return made;
});

db.items.where({ done: false }).where((it) => it.quantity > 1).sortBy('-due', 'title').observe((rows, changes) => {
  const first: string | undefined = rows[0]?.title;
  return [first, changes?.inserted];
});
// @ts-expect-error no such column
db.items.where({ nope: 1 });
// @ts-expect-error no such column
db.items.sortBy('nope');
db.onLost((lost) => lost.map((it) => [it.table, it.column, it.mine]));
db.observeSync((state) => (state.status === 'attention' ? state.problem.kind : state.status));
