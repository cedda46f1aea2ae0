// The rows of a list: each is drawn again where its object is another one, and moved where its place is.

import { changeQuantity, db, eraseItems, type Item } from './data.js';
import { byId, make, replaceButtons, told } from './page.js';

const rows = new Map<string, { row: HTMLLIElement; item: Item }>();

export function drawItems(items: readonly Item[]): void {
  const focused = document.activeElement as HTMLElement | null;
  const isFirst = rows.size === 0;
  const gone = new Set(rows.keys());
  const list = byId<HTMLUListElement>('items');
  items.forEach((item, place) => {
    gone.delete(item.id);
    const known = rows.get(item.id);
    const row = known?.row ?? newRow(item.id, !isFirst);
    if (known?.item !== item) fill(row, item);
    rows.set(item.id, { row, item });
    if (list.children[place] !== row) list.insertBefore(row, list.children[place] ?? null);
  });
  for (const id of gone) erase(id);
  if (focused?.isConnected && focused !== document.activeElement) focused.focus(); // a row that is moved loses it
  byId('empty').hidden = items.length > 0;
  drawClear(items.filter((it) => it.done));
}

/** Takes a row away. Who was at it, by the keyboard, is at the next one then. */
function erase(id: string): void {
  const { row } = rows.get(id)!;
  const next = row.nextElementSibling ?? row.previousElementSibling;
  if (row.contains(document.activeElement)) (next?.querySelector<HTMLElement>('.drop') ?? byId('title')).focus();
  row.remove();
  rows.delete(id);
}

function drawClear(done: readonly Item[]): void {
  const clear = byId('clear');
  if (done.length === 0 && clear === document.activeElement) byId('title').focus();
  clear.hidden = done.length === 0;
  clear.textContent = `Clear ${done.length} bought`;
  clear.onclick = () => void told(eraseItems(done.map((it) => it.id)));
}

/** What a person set by hand is set back where it is refused. */
async function shown(id: string, written: Promise<void>): Promise<void> {
  const drawn = (await told(written)) === null ? rows.get(id) : undefined;
  if (drawn) fill(drawn.row, drawn.item);
}

function newRow(id: string, isNew: boolean): HTMLLIElement {
  const tick = make('input', { type: 'checkbox', class: 'tick' });
  const name = make('input', { class: 'name', 'aria-label': 'Title', maxlength: '200' });
  const [less, more] = [make('button', { type: 'button' }, '−'), make('button', { type: 'button' }, '+')];
  const drop = make('button', { type: 'button', class: 'drop' }, '×');
  tick.onchange = () => void shown(id, db.write((tx) => tx.items.update(id, { done: tick.checked })));
  name.onchange = () => void shown(id, db.write((tx) => tx.items.update(id, { title: name.value.trim() || 'something' })));
  name.onkeydown = (event) => { if (event.key === 'Enter') name.blur(); };
  less.onclick = () => void told(changeQuantity(id, -1));
  more.onclick = () => void told(changeQuantity(id, 1));
  drop.onclick = () => void told(eraseItems([id]));
  const count = make('span', { class: 'count-of' }, less, make('output'), more);
  const add = make('input', { class: 'add-tag', placeholder: '+ tag', maxlength: '24' });
  add.onchange = () => {
    const tag = add.value.trim();
    add.value = '';
    if (tag) void told(db.write((tx) => tx.items.at(id).tags.add(tag)));
  };
  const tags = make('span', { class: 'tags' });
  const row = make('li', isNew ? { class: 'new' } : {}, tick, name, count, drop, make('span', { class: 'more' }, tags, add));
  row.dataset['id'] = id;
  if (isNew) setTimeout(() => row.classList.remove('new'), 1200);
  return row;
}

function fill(row: HTMLLIElement, item: Item): void {
  const { title } = item;
  row.classList.toggle('done', item.done);
  const [less, more] = row.querySelectorAll('.count-of button');
  const tick = row.querySelector<HTMLInputElement>('.tick')!;
  tick.checked = item.done;
  const names = [
    [tick, `Bought: ${title}`], [less, `One less of ${title}`], [more, `One more of ${title}`], [row.querySelector('.drop'), `Remove ${title}`],
    [row.querySelector('.add-tag'), `Add a tag to ${title}`],
  ] as const;
  for (const [element, name] of names) element!.setAttribute('aria-label', name);
  const name = row.querySelector<HTMLInputElement>('.name')!;
  if (document.activeElement !== name) name.value = title;
  row.querySelector('output')!.textContent = String(item.quantity);
  replaceButtons(row.querySelector('.tags')!, chipsOf(item));
}

function chipsOf(item: Item): HTMLElement[] {
  return [...item.tags].map((tag) => {
    const chip = make('button', { type: 'button', class: 'tag', 'aria-label': `Remove the tag ${tag} from ${item.title}` }, tag);
    chip.onclick = () => void told(db.write((tx) => tx.items.at(item.id).tags.delete(tag)));
    return chip;
  });
}
