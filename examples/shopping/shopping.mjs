#!/usr/bin/env node
// A shopping list in the terminal: it works offline, and agrees with every other device of the household.
//
// usage: shopping.mjs FOLDER [URL]     URL is that of a history, https://HOST/v1/histories/NAME, and REALM_TOKEN a token for it
import { createInterface } from 'node:readline';
import { bool, counter, defineSchema, key, RealmError, set, text, time } from 'realm-sync';
import { openDatabase } from 'realm-sync/node';

const HELP = 'add TITLE | done N | more N | less N | tag N WORD | rename N TITLE | drop N | clear | list | recover | quit';
const schema = defineSchema({
  items: { id: key.uuid(), title: text(), done: bool(), quantity: counter(), tags: set(text()), created: time() },
});

const [folder, url] = process.argv.slice(2);
if (!folder) {
  console.error('usage: shopping.mjs FOLDER [URL]');
  process.exit(2);
}
const sync = url && { url, token: process.env.REALM_TOKEN };
const db = await openDatabase({ folder, schema, sync });
const items = db.items.sortBy('done', 'created');

const draw = (all) => all.forEach(({ done, quantity, title, tags }, at) =>
  console.log(`${String(at + 1).padStart(3)} [${done ? 'x' : ' '}] ${quantity} ${title}${[...tags].sort().map((tag) => ` #${tag}`).join('')}`));

/** One command of the user as the edits of a transaction. */
function edit(tx, verb, words) {
  if (verb === 'add') return tx.items.create({ title: words.join(' '), quantity: 1, created: new Date() });
  const all = items.toArray();
  for (const { id, done } of verb === 'clear' ? all.filter((it) => it.done) : all.slice(words[0] - 1, words[0])) {
    if (!tx.items.has(id)) continue;
    switch (verb) {
      case 'done': tx.items.update(id, { done: !done }); break;
      case 'more':
      case 'less': tx.items.at(id).quantity.add(verb === 'more' ? 1 : -1); break;
      case 'tag': tx.items.at(id).tags.add(words[1]); break;
      case 'rename': tx.items.update(id, { title: words.slice(1).join(' ') }); break;
      default: tx.items.erase(id);
    }
  }
}

items.observe(draw);
db.onLost((lost) => lost.forEach(({ column, mine }) =>
  console.log(`(your ${column ?? 'item'} ${mine ?? ''} isn't there any more: another device changed it)`)));
db.onRecovered(({ saved, dropped }) => console.log(`(set up anew: ${saved} unsent changes were kept, ${dropped.length} edits weren't)`));
db.observeSync((state) => {
  if (state.status === 'offline') console.log(`(offline: ${state.reason})`);
  if (state.status === 'attention') console.log(`(needs attention: ${state.problem.text})`);
});

for await (const line of createInterface({ input: process.stdin })) {
  const [verb, ...words] = line.split(' ').filter(Boolean);
  try {
    if (verb === 'quit') break;
    if (verb === 'recover') await db.recover();
    else if (verb === undefined || verb === 'list') draw(items.toArray());
    else if (HELP.split(' ').includes(verb)) await db.write((tx) => void edit(tx, verb, words));
    else console.log(HELP);
  } catch (error) {
    if (!(error instanceof RealmError)) throw error;
    console.log(`(${error.message})`);
  }
}
await db.close();
