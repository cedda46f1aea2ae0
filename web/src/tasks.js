// The tasks as tables: what a phone shows, and the edits of what is done on it.

const LIST = { table: 'list', key: 'home', column: 'order' };

const column = (name, kind, shape, more = {}) => ({ op: 'AddColumn', table: 'task', column: name, kind, nullable: false, shape, ...more });
const cell = (key, name) => ({ table: 'task', key, column: name });

/** The first transaction: the tables, their columns, and the one list. */
export const SCHEMA = [
  { op: 'AddTable', table: 'task', key: 'Text' },
  column('title', 'Text', 'One'),
  column('done', 'Bool', 'One'),
  column('tags', 'Text', 'Set'),
  column('votes', 'Int', 'One'),
  column('notes', 'Text', 'Dict'),
  { op: 'AddTable', table: 'list', key: 'Text' },
  { op: 'AddColumn', table: 'list', column: 'order', kind: 'Link', nullable: false, shape: 'List', target: 'task' },
  { op: 'CreateObject', table: 'list', key: 'home' },
];

/** The list's links as a client shows them: `{ link, key, resolved }`. */
function linksOf(tables) {
  return tables.get('list')?.objects.get('"home"')?.cells.order ?? [];
}

/**
 * The tasks of a client in the order of its list: `{ key, title, done, tags, votes, notes, due }`. A link whose task was erased
 * is left out. Where two phones moved one task at once its link stands twice, and the first one counts.
 */
export function tasksOf(tables) {
  const objects = tables.get('task')?.objects ?? new Map();
  const keys = new Set(linksOf(tables).filter((link) => link.resolved).map((link) => link.key));
  return [...keys].map((key) => ({ key, ...objects.get(JSON.stringify(key)).cells }));
}

/** The kind of the column `due`, or null where the client has no such column. */
export function dueKind(tables) {
  return tables.get('task')?.columns.get('due')?.kind ?? null;
}

/** The edits that take each link to a task out of the list, the last one first. */
function unlinked(links, key) {
  const places = links.flatMap((link, place) => (link.key === key ? [place] : [])).reverse();
  return places.map((place, at) => ({ op: 'ListErase', ...LIST, place, prior: links.length - at }));
}

const linked = (key, place, prior) => ({ op: 'ListInsert', ...LIST, place, prior, value: { link: 'task', key } });

/** A new task at the top or at the end of the list. */
export function add(tables, key, title, atTop) {
  const length = linksOf(tables).length;
  return [
    { op: 'CreateObject', table: 'task', key },
    { op: 'Update', ...cell(key, 'title'), value: title },
    linked(key, atTop ? 0 : length, length),
  ];
}

/** The task goes before the task `before`, or to the end where that is null. */
function moveBefore(tables, key, before) {
  const links = linksOf(tables);
  const left = links.filter((link) => link.key !== key);
  const place = before === null ? left.length : left.findIndex((link) => link.key === before);
  return [...unlinked(links, key), linked(key, place, left.length)];
}

/** One place up or down among the tasks that are shown, or null at the end of the list. */
export function move(tables, key, up) {
  const shown = tasksOf(tables).map((task) => task.key);
  const at = shown.indexOf(key);
  if (up) return at === 0 ? null : moveBefore(tables, key, shown[at - 1]);
  return at === shown.length - 1 ? null : moveBefore(tables, key, shown[at + 2] ?? null);
}

/** The task is erased, and so are its links. */
export function erase(tables, key) {
  return [...unlinked(linksOf(tables), key), { op: 'EraseObject', table: 'task', key }];
}

export const setTitle = (key, value) => [{ op: 'Update', ...cell(key, 'title'), value }];
export const setDone = (key, value) => [{ op: 'Update', ...cell(key, 'done'), value }];
export const setDue = (key, value) => [{ op: 'Update', ...cell(key, 'due'), value }];
export const vote = (key) => [{ op: 'AddInteger', ...cell(key, 'votes'), amount: 1 }];
export const addTag = (key, value) => [{ op: 'SetInsert', ...cell(key, 'tags'), value }];
export const dropTag = (key, value) => [{ op: 'SetErase', ...cell(key, 'tags'), value }];
export const setNote = (key, at, value) => [{ op: 'DictUpdate', ...cell(key, 'notes'), at, value }];
export const dropNote = (key, at) => [{ op: 'DictErase', ...cell(key, 'notes'), at }];
export const addDue = (kind) => [column('due', kind, 'One')];
