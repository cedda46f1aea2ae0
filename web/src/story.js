// What was made and what it became, read off the commands so far, what they printed, and the server's history.

import { editsOf, fates } from './changeset.js';

/** What became of a transaction as a whole, from its edits' fates. */
function wholeFate(all) {
  const has = (fate) => all.some((it) => it.fate === fate);
  const isAll = (...fates) => all.length > 0 && all.every((it) => fates.includes(it.fate));
  if (isAll('same')) return 'same';
  if (isAll('same', 'dropped')) return 'dropped';
  if (has('dropped')) return 'partly';
  return has('moved') || has('changed') || has('same') ? 'moved' : 'kept';
}

/** What became of a transaction that an heir saved. */
function savedFate({ as, dropped }) {
  if (dropped.length === 0) return 'saved';
  return as.edits.length === 0 ? 'lost' : 'partly';
}

/**
 * The story of an exchange: `columns`, an entry for each command that made, integrated, took, refused or recovered something,
 * and `transactions`, each with what it became. Messages that brought nothing new have no column.
 */
class Story {
  /** `names` has the client of each ident. */
  constructor(history, names) {
    this.history = history;
    this.nameOf = (entry) => `${names.get(entry.origin)}·${entry.number}`;
    this.entries = new Map(history.map((entry) => [this.nameOf(entry), entry]));
    this.transactions = new Map();
    this.columns = [];
    this.stored = new Map();
    this.cursors = new Map();
  }

  transaction(client, number, edits) {
    const name = `${client}·${number}`;
    const entry = this.entries.get(name);
    const became = entry ? fates(edits, editsOf(entry.hex)) : null;
    const it = { client, number, name, edits, entry, became, refused: null, saved: null, fate: became ? wholeFate(became) : 'waiting' };
    this.transactions.set(name, it);
    return it;
  }

  edit({ node, edits, outcomes: [outcome] }, line) {
    if (!edits) return;
    if (outcome.kind !== 'made') this.columns.push({ line, kind: 'broken', node, outcome });
    else this.columns.push({ line, kind: 'made', node, transaction: this.transaction(node, outcome.numbers[0], edits) });
  }

  /** All that a client made and sent is integrated, up to a change that the server refuses. */
  send({ node, outcomes: [outcome] }, line) {
    const [number, code] = outcome.why === 'WasRefused' ? outcome.numbers : [Infinity];
    const sent = [...this.transactions.values()].filter((it) => it.client === node && it.number > (this.stored.get(node) ?? 0));
    const transactions = sent.filter((it) => it.number < number);
    const refused = sent.find((it) => it.number === number && !it.refused) ?? null;
    if (transactions.length > 0) this.stored.set(node, transactions.at(-1).number);
    if (refused) Object.assign(refused, { refused: { code }, fate: 'refused' });
    if (transactions.length > 0 || refused) this.columns.push({ line, kind: 'stored', node, transactions, refused });
  }

  /** A client takes the entries behind those that it has, up to one that it can't merge with what it made. */
  ask({ node, outcomes: [outcome] }, line) {
    const from = this.cursors.get(node) ?? 0;
    const fresh = this.history.slice(from, outcome.numbers[0]);
    this.cursors.set(node, from + fresh.length);
    if (fresh.length > 0) this.columns.push({ line, kind: 'took', node, transactions: fresh.map((entry) => this.transactions.get(this.nameOf(entry))) });
    if (outcome.kind === 'refused') this.columns.push({ line, kind: 'stopped', node, outcome });
  }

  /** An heir saves what can be saved of what another client has unsent, and tells each edit that it drops with its reason. */
  recover({ node, from, unsent, made, outcomes }, line) {
    const droppedOf = (number) => outcomes.filter((it) => it.kind === 'dropped' && it.numbers[0] === number).map((it) => it.numbers);
    const recovered = outcomes.filter((it) => it.kind === 'saved').map(({ numbers: [number, as] }) => {
      const edits = unsent.get(number);
      const dropped = droppedOf(number).map(([, place, code]) => ({ edit: edits[place], code }));
      const old = this.transactions.get(`${from}·${number}`);
      const saved = { dropped, became: fates(old.edits, edits), as: this.transaction(node, as, made.get(as)) };
      return Object.assign(old, { saved, fate: savedFate(saved) });
    });
    this.columns.push({ line, kind: 'recovered', node, from, transactions: recovered });
  }
}

/** The story of the commands `acts`, where the server has this history, and `names` the client of each ident. */
export function storyOf(acts, history, names) {
  const story = new Story(history, names);
  acts.forEach((act, at) => story[act.kind]?.(act, at + 1));
  return { columns: story.columns, transactions: [...story.transactions.values()] };
}
