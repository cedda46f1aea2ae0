// Edits, outcomes and fates in plain words.

const quoted = (value) => (typeof value === 'string' ? `“${value}”` : value?.link ? value.key : JSON.stringify(value));
const taskCell = (edit) => (edit.table === 'list' ? 'the list' : `${edit.column} of ${edit.key}`);

const SAYINGS = {
  AddTable: (edit) => `table ${edit.table}`,
  AddColumn: (edit) => `column ${edit.column}, ${edit.shape === 'One' ? '' : `${edit.shape} of `}${edit.kind}`,
  CreateObject: (edit) => (edit.table === 'list' ? 'the list' : `new task ${edit.key}`),
  EraseObject: (edit) => `${edit.key} erased`,
  Update: (edit) => `${taskCell(edit)} = ${quoted(edit.value)}`,
  AddInteger: (edit) => `${taskCell(edit)} ${edit.amount < 0 ? '−' : '+'} ${Math.abs(edit.amount)}`,
  ListInsert: (edit) => `${quoted(edit.value)} put at place ${edit.place + 1}`,
  ListUpdate: (edit) => `place ${edit.place + 1} = ${quoted(edit.value)}`,
  ListErase: (edit) => `place ${edit.place + 1} taken out`,
  SetInsert: (edit) => `tag ${quoted(edit.value)} on ${edit.key}`,
  SetErase: (edit) => `no tag ${quoted(edit.value)} on ${edit.key}`,
  DictUpdate: (edit) => `note ${edit.at} of ${edit.key} = ${quoted(edit.value)}`,
  DictErase: (edit) => `no note ${edit.at} on ${edit.key}`,
  Clear: (edit) => `${taskCell(edit)} cleared`,
};

/** One edit in words. */
export const editWords = (edit) => SAYINGS[edit.op](edit);

/** What a phone did, where a transaction has several edits. */
const DEEDS = [
  [['CreateObject', 'Update', 'ListInsert'], ([create, title, link]) => `new task ${create.key} ${quoted(title.value)} at place ${link.place + 1}`],
  [['ListErase', 'ListInsert'], ([, link]) => `${link.value.key} moved to place ${link.place + 1}`],
  [['ListErase', 'EraseObject'], ([, erase]) => editWords(erase)],
];

/** A transaction in a few words. */
export function transactionWords(edits) {
  const ops = edits.map((edit) => edit.op).join();
  if (ops.startsWith('AddTable')) return 'the tables, their columns and an empty list';
  const deed = DEEDS.find(([shape]) => shape.join() === ops);
  return deed ? deed[1](edits) : edits.map(editWords).join('; ');
}

export const plural = (count, one, many = `${one}s`) => `${count} ${count === 1 ? one : many}`;

/** What became of one made edit, where it isn't simply there as made. */
export function fateWords({ edit, fate, became }) {
  if (fate === 'dropped') return `dropped: ${editWords(edit)}`;
  if (fate === 'same') return `another did it too: ${editWords(edit)}`;
  if (fate === 'moved') return `moved: ${editWords(became)}`;
  return `changed: ${editWords(became)}`;
}

/** The reasons with which the rules refuse: codes of mismatches, of an upload's changes, and of edits that break. */
const CODES = {
  1: 'two devices define one table differently',
  2: 'two devices define one column differently',
  3: 'two devices changed lists of different lengths',
  4: 'a list would grow past its limit',
  10: 'a table of that name is there already',
  11: 'its table isn’t there',
  12: 'a column of that name is there already',
  14: 'its column isn’t there',
  20: 'the column there is of another shape',
  21: 'the value doesn’t fit the column there',
  23: 'the list there has another length',
  30: 'its task isn’t there',
  31: 'the keys there are of another kind',
  61: 'a changeset before it was refused',
  68: 'another phone took over from this one',
};

/** The reason of a refusal or of a dropped edit in words. */
export const reasonWords = (code) => CODES[code] ?? `rule ${code}`;

const droppedWords = ({ edit, code }) => `${editWords(edit)} (${reasonWords(code)}, code ${code})`;

/** What became of a transaction when another phone took over, in a sentence or two. */
export function savedWords({ name, saved: { as, dropped } }) {
  const kept = transactionWords(as.edits);
  const lost = dropped.map(droppedWords).join('; ');
  if (dropped.length === 0) return `${name} is saved as ${as.name}: ${kept || 'nothing was left of it'}.`;
  if (as.edits.length === 0) return `${name} is lost: ${lost}.`;
  return `${name} is saved in part, as ${as.name}: ${kept}. Lost of it: ${lost}.`;
}

/** How many of a phone's transactions another one saved, in one sentence. */
export function takenOverWords({ node, from, transactions }) {
  const count = (fate) => transactions.filter((it) => it.fate === fate).length;
  const counts = [['saved', 'saved'], ['partly', 'saved in part'], ['lost', 'lost']].filter(([fate]) => count(fate) > 0).map(([fate, words]) => `${count(fate)} ${words}`);
  return `Phone ${node} took over from phone ${from}. Of ${plural(transactions.length, 'changeset')} that the server had refused or had not seen: ${counts.join(', ') || 'none'}.`;
}
