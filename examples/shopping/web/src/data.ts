// The data of the shopping list: all that an application declares, and how it is opened.

import { bool, counter, defineSchema, key, link, openDatabase, set, text, time, type ObjectOf } from 'realm-sync';

export const schema = defineSchema({
  lists: { id: key.uuid(), name: text(), created: time() },
  items: { id: key.uuid(), list: link('lists'), title: text(), done: bool(), quantity: counter(), tags: set(text()), created: time() },
});
export type Item = ObjectOf<typeof schema.declared.items>;

/** A word of the address, which is kept: an installed page begins without it. */
function setting(name: string, other: string): string {
  const given = new URLSearchParams(location.search).get(name);
  if (given !== null) localStorage.setItem(`shopping.${name}`, given);
  return given ?? localStorage.getItem(`shopping.${name}`) ?? other;
}

const here = `${location.protocol === 'https:' ? 'wss' : 'ws'}://${location.host}`;
export const sync = { url: setting('url', `${here}/v1/histories/household`), token: setting('token', ''), retryMost: 5000 };
export const db = await openDatabase({ name: setting('db', 'shopping'), schema, sync });

export function addItem(list: string | null, title: string): Promise<string> {
  return db.write((tx) => {
    const to = list ?? tx.lists.create({ name: 'Groceries', created: new Date() });
    tx.items.create({ list: to, title, quantity: 1, created: new Date() });
    return to;
  });
}

/** One more or one less, and never less than one here. */
export const changeQuantity = (id: string, by: number): Promise<void> =>
  db.write((tx) => {
    const item = tx.items.get(id);
    if (item && item.quantity + by >= 1) tx.items.at(id).quantity.add(by);
  });

export const eraseItems = (ids: readonly string[]): Promise<void> =>
  db.write((tx) => {
    for (const id of ids) if (tx.items.has(id)) tx.items.erase(id);
  });
