// The lanes: a column for each command that made, carried, dropped, refused or saved something, a row for each phone and the server.

import { hueOf, make, unseen } from './elements.js';
import { editWords, fateWords, plural, reasonWords, savedWords, transactionWords } from './words.js';

/** How many transactions of one download are drawn, the last ones. */
const MOST = 8;
const SVG = 'http://www.w3.org/2000/svg';
const FATES = {
  waiting: 'made, not on the server yet',
  kept: 'as made',
  moved: 'carried',
  same: 'another did the same',
  partly: 'partly dropped',
  dropped: 'dropped',
  refused: 'refused',
  saved: 'saved by the phone that took over',
  lost: 'lost: nothing of it could be saved',
};
const MARKS = { waiting: '○', kept: '●', moved: '◐', same: '=', partly: '◔', dropped: '✕', refused: '⊘', saved: '↪', lost: '⊗' };

/** A transaction as a mark of its fate and its name, in the colour of its client. */
function chip(transaction, fate, more = '') {
  const seen = [make('span', { class: 'mark', 'aria-hidden': 'true' }, MARKS[fate]), transaction.name];
  return make('span', { class: `chip ${fate} ${more} ${hueOf(transaction.client)}`, title: transactionWords(transaction.edits) }, seen, unseen(`, ${FATES[fate]}`));
}

const note = (text) => make('span', { class: 'note' }, text);

/** The last transactions that a client took, and how many came before these. */
function takenChips({ node, transactions }) {
  const [earlier, last] = [transactions.slice(0, -MOST), transactions.slice(-MOST)];
  return [note(earlier.length > 0 ? `took ${earlier.length}, and` : 'took'), ...last.map((it) => chip(it, it.fate, it.client === node ? 'own' : ''))];
}

const chips = (transactions) => transactions.map((it) => chip(it, it.fate));
const refusalChips = (refused) => (refused ? [chip(refused, 'refused'), note(reasonWords(refused.refused.code))] : []);

/** What stands in the rows at a column of each kind, by node. */
const CELLS = {
  made: ({ node, transaction }) => ({ [node]: [note('made'), chip(transaction, 'waiting')] }),
  broken: ({ node, outcome }) => ({ [node]: [note(outcome.text)] }),
  stopped: ({ node, outcome }) => ({ [node]: [make('span', { class: 'chip refused' }, '⊘ stopped'), note(reasonWords(outcome.numbers[2]))] }),
  stored: ({ node, transactions, refused }) => ({ [node]: [note('upload')], server: [...chips(transactions), ...refusalChips(refused)] }),
  took: (column) => ({ server: [note('download')], [column.node]: takenChips(column) }),
  recovered: ({ node, from, transactions }) => ({
    [from]: [note('gave over'), ...chips(transactions)],
    server: [note(`retired ${from}`)],
    [node]: [note('took over'), ...transactions.map((it) => chip(it.saved.as, 'waiting'))],
  }),
};

/** The table of lanes. `rows` are the nodes from the top, `server` among them. */
function tableOf(columns, rows) {
  const head = make('tr', {}, make('th', { scope: 'col' }, 'Command'), columns.map((it) => make('th', { scope: 'col' }, make('a', { href: `#line-${it.line}` }, String(it.line)))));
  const cells = columns.map((column) => CELLS[column.kind](column));
  const body = rows.map((node) => {
    const name = node === 'server' ? 'Server' : `Phone ${node}`;
    const title = make('th', { scope: 'row', class: node === 'server' ? '' : hueOf(node) }, name);
    return make('tr', { 'data-node': node }, title, cells.map((it, at) => make('td', { 'data-column': at }, it[node] ?? [])));
  });
  return make('table', {}, make('caption', { class: 'unseen' }, 'What happened at each command, by phone and server'), make('thead', {}, head), make('tbody', {}, body));
}

/** Between which rows a message or a rescue went. */
const ENDS = {
  stored: ({ node }) => [node, 'server'],
  took: ({ node }) => ['server', node],
  recovered: ({ from, node }) => [from, node],
};

/** Draws a line with a point between the rows of each column that something crossed. */
function drawLines(frame, columns) {
  frame.querySelector('svg')?.remove();
  const box = frame.getBoundingClientRect();
  const svg = document.createElementNS(SVG, 'svg');
  svg.setAttribute('aria-hidden', 'true');
  svg.setAttribute('width', frame.scrollWidth);
  svg.setAttribute('height', frame.scrollHeight);
  columns.forEach((column, at) => {
    if (!(column.kind in ENDS)) return;
    const [from, to] = ENDS[column.kind](column);
    const spot = (node) => frame.querySelector(`tr[data-node="${node}"] td[data-column="${at}"]`).getBoundingClientRect();
    const [start, end] = [spot(from), spot(to)];
    const isDown = end.top > start.top;
    const x = start.left - box.left + start.width - 9;
    const [y1, y2] = [start.top + 12 - box.top, end.top + 12 - box.top];
    const path = document.createElementNS(SVG, 'path');
    const tip = isDown ? -5 : 5;
    path.setAttribute('d', `M${x} ${y1}V${y2}M${x - 4} ${y2 + tip}L${x} ${y2}L${x + 4} ${y2 + tip}`);
    path.setAttribute('class', hueOf(column.node));
    svg.append(path);
  });
  frame.append(svg);
}

/** What became of a transaction, as lines of words. */
function becameOf(transaction) {
  const { entry, became, refused, saved } = transaction;
  const changed = (all) => all.filter((it) => it.fate !== 'kept').map(fateWords);
  const refusal = refused ? [`refused by the server: ${reasonWords(refused.code)} (code ${refused.code})`] : [];
  if (saved) return [...refusal, ...changed(saved.became), savedWords(transaction)];
  if (refused) return refusal;
  if (!entry) return ['not on the server yet'];
  return changed(became).length === 0 ? ['as made'] : changed(became);
}

/** The table of all transactions, the latest first: what each said, and what it became. */
function transactionsTable(transactions) {
  const head = make('tr', {}, ['Transaction', 'Made', 'Place in the history', 'What it became'].map((it) => make('th', { scope: 'col' }, it)));
  const rows = [...transactions].reverse().map((it) =>
    make('tr', {}, [
      make('th', { scope: 'row' }, chip(it, it.fate)),
      make('td', {}, it.edits.map(editWords).join('; ') || 'nothing'),
      make('td', {}, it.entry ? String(it.entry.version + 1) : '–'),
      make('td', {}, becameOf(it).map((words) => make('div', {}, words))),
    ]),
  );
  return make('table', { class: 'rows' }, make('thead', {}, head), make('tbody', {}, rows));
}

/** Draws the lanes and the table of transactions, and says in one sentence how many there are of each fate. */
export function drawLanes({ frame, summary, table }, story, rows) {
  const { columns, transactions } = story;
  frame.replaceChildren(tableOf(columns, rows));
  drawLines(frame, columns);
  const count = (fate) => transactions.filter((it) => it.fate === fate).length;
  const said = Object.keys(FATES).filter((fate) => count(fate) > 0).map((fate) => `${count(fate)} ${FATES[fate]}`);
  summary.textContent = `${plural(transactions.length, 'transaction')}: ${said.join(', ')}.`;
  table.replaceChildren(transactionsTable(transactions));
  frame.parentElement.scrollLeft = frame.scrollWidth;
}

/** The lines between the rows again, after the page changed its width; what came last stays in sight. */
export function redrawLines(frame, story) {
  drawLines(frame, story.columns);
  frame.parentElement.scrollLeft = frame.scrollWidth;
}

/** What the marks mean. */
export function legend() {
  return Object.keys(FATES).map((fate) => make('li', {}, make('span', { class: `chip ${fate}`, 'aria-hidden': 'true' }, MARKS[fate]), ` ${FATES[fate]}`));
}
