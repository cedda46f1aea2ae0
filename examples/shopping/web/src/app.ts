// A shopping list that works offline. What is shown follows the live queries.

import { addItem, db } from './data.js';
import { drawItems } from './items.js';
import { byId, make, replaceButtons, told } from './page.js';
import { drawSync } from './sync.js';

let current: string | null = null;
let stopItems = (): void => {};

function drawLists(): void {
  const open = new Map<string | null, number>();
  for (const { list } of db.items.where({ done: false }).toArray()) open.set(list, (open.get(list) ?? 0) + 1);
  const buttons = db.lists.sortBy('created').toArray().map(({ id, name }) => {
    const isCurrent = id === current;
    const count = make('span', { class: 'count' }, String(open.get(id) ?? ''));
    const button = make('button', { type: 'button', 'aria-pressed': String(isCurrent), title: isCurrent ? 'Rename this list' : '' }, name, count);
    button.onclick = () => (isCurrent ? rename(id, name) : show(id));
    return button;
  });
  const add = make('button', { type: 'button', 'aria-label': 'New list' }, '+');
  add.onclick = () => void newList();
  replaceButtons(byId('lists'), [...buttons, add]);
}

function rename(id: string, before: string): void {
  const name = prompt('Name of the list', before)?.trim();
  if (name) void told(db.write((tx) => tx.lists.update(id, { name })));
}

async function newList(): Promise<void> {
  const name = prompt('Name of the new list')?.trim();
  if (name) show(await told(db.write((tx) => tx.lists.create({ name, created: new Date() }))));
}

function show(list: string | null): void {
  current = list;
  stopItems();
  stopItems = db.items.where({ list }).sortBy('done', 'created').observe(drawItems);
  drawLists();
}

byId<HTMLFormElement>('add').onsubmit = (event) => {
  event.preventDefault();
  void addTitle(byId<HTMLInputElement>('title'));
};

/** Puts what was typed into the list. Where that is refused it is there still, to try again. */
async function addTitle(input: HTMLInputElement): Promise<void> {
  const title = input.value.trim();
  if (!title) return;
  input.value = '';
  const list = await told(addItem(current, title));
  if (list === null) input.value ||= title;
  else if (list !== current) show(list);
}

db.lists.observe((lists) => {
  if (current === null || !lists.some((it) => it.id === current)) show(db.lists.sortBy('created').first()?.id ?? null);
  else drawLists();
});
db.onChange(() => {
  drawLists();
  void drawSync();
});

async function drawFacts(): Promise<void> {
  const { ident, cursor, memory } = await db.stats();
  const where = db.isHost ? 'this tab has the files' : 'by another tab';
  byId('facts').textContent = `device ${ident || '–'} · ${cursor} changes · ${db.storage} · ${where} · ${(memory / 1048576).toFixed(1)} MB`;
}
setInterval(() => void drawFacts(), 1000);
await drawFacts();
document.body.dataset['ready'] = 'yes';
