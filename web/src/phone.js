// A phone: its switch, how far it is, its tasks, and what can be done on it. Each control calls `act` with one transaction.

import { hueOf, make, redraw, unseen } from './elements.js';
import * as tasks from './tasks.js';
import { plural, reasonWords, savedWords, takenOverWords } from './words.js';

/** A text key and a name have at most 255 bytes, and a character at most four. */
const LONGEST = 60;

/** The nearest number that JavaScript and the program both have; 0 for what is no number. */
const wholeNumber = (value) => Math.max(-Number.MAX_SAFE_INTEGER, Math.min(Number.MAX_SAFE_INTEGER, Math.trunc(value || 0)));

/** How far a phone is, in words. */
function stateWords({ isOnline, client, length, refusal }) {
  if (refusal) {
    const kept = plural(client.unsent, 'changeset');
    const online = isOnline ? '' : ', once this one is online';
    return `Stopped: ${reasonWords(refusal.numbers[2])}. It takes nothing more, and keeps all that it made (${kept} of its own). A new phone can take over from it${online}, and save of that what can be saved.`;
  }
  const waiting = client.unsent > 0 ? `${plural(client.unsent, 'changeset')} made here ${client.unsent === 1 ? 'waits' : 'wait'}. ` : '';
  const behind = length - client.cursor;
  if (!isOnline) return `Offline. ${waiting}It has taken ${plural(client.cursor, 'changeset')} of the server’s.`;
  return `${waiting}It has taken ${behind === 0 ? 'all' : client.cursor} of the server’s ${plural(length, 'changeset')}.`;
}

const button = (id, label, seen, click, attributes = {}) => make('button', { type: 'button', id, 'aria-label': label, title: label, click, ...attributes }, seen);

/** A form of one row, whose text inputs keep what is typed while the phone is drawn anew. */
function form(label, fields, submit) {
  const send = (event) => {
    event.preventDefault();
    const values = fields.map((field) => field.value.trim());
    if (values.some((value) => value === '')) return fields.find((field) => field.value.trim() === '').focus();
    for (const field of fields) field.value = '';
    submit(...values);
    return undefined;
  };
  return make('form', { submit: send, class: 'row' }, fields, make('button', { type: 'submit' }, label));
}

const draft = (id, label) => make('input', { type: 'text', id, 'data-draft': true, maxlength: LONGEST, 'aria-label': label, placeholder: label.split(' of ')[0].split(' for ')[0], autocomplete: 'off' });

/** The views of one phone's tasks. `phone.act(edits, said)` commits one transaction. */
class TaskView {
  constructor(phone, task, at, count) {
    Object.assign(this, { phone, task, at, count });
    this.id = `${phone.name}-${task.key}`;
  }

  act(edits, said) {
    this.phone.act(edits, said);
  }

  done() {
    const { key, done, title } = this.task;
    const change = (event) => this.act(tasks.setDone(key, event.target.checked), `“${title}” is ${event.target.checked ? 'done' : 'open'}`);
    return make('input', { type: 'checkbox', id: `${this.id}-done`, checked: done, 'aria-label': `Done: ${title}`, change });
  }

  title() {
    const { key, title, done } = this.task;
    const change = (event) => {
      const value = event.target.value.trim();
      if (value !== '' && value !== title) this.act(tasks.setTitle(key, value), `the title of ${key} is “${value}”`);
      else event.target.value = title;
    };
    const keydown = (event) => {
      if (event.key === 'Escape') event.target.value = title;
    };
    return make('input', { type: 'text', id: `${this.id}-title`, class: done ? 'title is-done' : 'title', value: title, maxlength: LONGEST, 'aria-label': `Title of ${key}`, autocomplete: 'off', change, keydown });
  }

  vote() {
    const { key, title, votes } = this.task;
    const click = () => this.act(tasks.vote(key), `a vote for “${title}”`);
    return button(`${this.id}-vote`, `Vote for “${title}”, ${plural(votes, 'vote')} so far`, `▲ ${votes}`, click, { class: 'vote' });
  }

  moves() {
    const { key, title } = this.task;
    const step = (up) => () => {
      const edits = tasks.move(this.phone.tables, key, up);
      if (edits) this.act(edits, `“${title}” one place ${up ? 'up' : 'down'}`);
    };
    return [
      button(`${this.id}-up`, `Move “${title}” up`, '↑', step(true), { 'aria-disabled': String(this.at === 0) }),
      button(`${this.id}-down`, `Move “${title}” down`, '↓', step(false), { 'aria-disabled': String(this.at === this.count - 1) }),
    ];
  }

  chips() {
    const { key, title, tags, notes } = this.task;
    const tag = (value) =>
      make('li', { class: 'tag' }, `#${value}`, button(`${this.id}-untag-${value}`, `Remove the tag ${value} of “${title}”`, '×', () => this.act(tasks.dropTag(key, value), `no tag ${value}`)));
    const note = ([at, value]) =>
      make('li', { class: 'note' }, `${at}: ${value}`, button(`${this.id}-unnote-${at}`, `Remove the note ${at} of “${title}”`, '×', () => this.act(tasks.dropNote(key, at), `no note ${at}`)));
    const all = [...tags.map(tag), ...Object.entries(notes).map(note)];
    return all.length > 0 && make('ul', { class: 'chips', 'aria-label': `Tags and notes of “${title}”` }, all);
  }

  due() {
    const kind = tasks.dueKind(this.phone.tables);
    if (!kind) return null;
    const { key, title, due } = this.task;
    const isNumber = kind === 'Int';
    const change = (event) => {
      const value = isNumber ? wholeNumber(event.target.valueAsNumber) : event.target.value.trim();
      if (value !== due) this.act(tasks.setDue(key, value), `due of “${title}” is ${value}`);
    };
    return make('label', { class: 'due' }, 'due ', make('input', { type: isNumber ? 'number' : 'text', id: `${this.id}-due`, value: String(due), maxlength: LONGEST, 'aria-label': `Due of “${title}”, ${isNumber ? 'a number' : 'a text'}`, change }));
  }

  more() {
    const { key, title } = this.task;
    const erase = () => this.act(tasks.erase(this.phone.tables, key), `“${title}” is erased`);
    return make('details', { id: `${this.id}-more` }, [
      make('summary', { id: `${this.id}-summary` }, 'Tag, note, erase', unseen(`: “${title}”`)),
      form('Add tag', [draft(`${this.id}-tag`, `Tag for “${title}”`)], (value) => this.act(tasks.addTag(key, value), `tag ${value} on “${title}”`)),
      form('Add note', [draft(`${this.id}-at`, `Name of a note for “${title}”`), draft(`${this.id}-value`, `Text of a note for “${title}”`)], (at, value) => this.act(tasks.setNote(key, at, value), `note ${at} on “${title}”`)),
      button(`${this.id}-erase`, `Erase “${title}”`, 'Erase the task', erase, { class: 'erase' }),
    ]);
  }

  item() {
    return make('li', { 'data-key': this.task.key }, [
      make('div', { class: 'row' }, [this.done(), make('span', { class: 'key', 'aria-hidden': 'true' }, this.task.key), this.title(), this.vote(), ...this.moves()]),
      this.due(),
      this.chips() || null,
      this.more(),
    ]);
  }
}

export class PhoneView {
  /**
   * `act(name, edits, said)` commits a transaction, `setOnline(name, isOnline)` and `retry(name)` are the network, and
   * `replace(name)` has a new phone take over.
   */
  constructor(name, { act, setOnline, retry, replace }) {
    this.name = name;
    this.act = (edits, said) => act(name, edits, said);
    this.made = 0;
    this.switch = make('input', { type: 'checkbox', role: 'switch', id: `${name}-online`, checked: true, change: (event) => setOnline(name, event.target.checked) });
    this.state = make('p', { class: 'state', id: `${name}-state` });
    this.rescue = make('div', { class: 'row', hidden: true }, [
      make('button', { type: 'button', id: `${name}-replace`, click: () => replace(name) }, `Replace phone ${name}`),
      make('button', { type: 'button', id: `${name}-retry`, click: () => retry(name) }, 'Upload and ask again', unseen(` (phone ${name})`)),
    ]);
    this.account = make('section', { class: 'account', id: `${name}-account`, tabindex: '-1', hidden: true });
    this.list = make('ol', { class: 'tasks', tabindex: '-1', 'aria-label': `Tasks on phone ${name}` });
    this.schema = make('details', { class: 'schema' }, make('summary', {}, 'Change the schema'));
    this.element = make('section', { class: `phone ${hueOf(name)}`, 'aria-labelledby': `${name}-name` }, [
      make('header', {}, make('h2', { id: `${name}-name` }, `Phone ${name}`), make('label', { class: 'switch' }, this.switch, make('span', {}, 'Online'), unseen(` (phone ${name})`))),
      this.state,
      this.rescue,
      this.account,
      this.adder(),
      this.list,
      this.schema,
    ]);
    this.schema.append(this.schemaForm());
  }

  /** The key of a task that is made here. No two phones make the same one. */
  newKey() {
    this.made += 1;
    return `${this.name}${this.made}`;
  }

  adder() {
    const text = make('input', { type: 'text', id: `${this.name}-new`, maxlength: LONGEST, 'aria-label': `New task on phone ${this.name}`, placeholder: 'New task', autocomplete: 'off' });
    const place = make('select', { id: `${this.name}-where`, 'aria-label': 'Where the new task goes' }, make('option', { value: 'end' }, 'at the end'), make('option', { value: 'top' }, 'at the top'));
    return form('Add', [text, place], (title, where) => {
      place.value = where;
      text.focus();
      this.act(tasks.add(this.tables, this.newKey(), title, where === 'top'), `new task “${title}”`);
    });
  }

  schemaForm() {
    const kind = make('select', { id: `${this.name}-kind`, 'aria-label': 'Kind of the column due' }, make('option', { value: 'Text' }, 'text'), make('option', { value: 'Int' }, 'number'));
    this.addColumn = make('button', { type: 'submit' }, 'Add a column “due”');
    const submit = (event) => {
      event.preventDefault();
      if (!tasks.dueKind(this.tables)) this.act(tasks.addDue(kind.value), `a column due, a ${kind.value === 'Int' ? 'number' : 'text'}`);
    };
    const hint = 'Two phones that add it offline as the same kind agree. With two kinds the server refuses the second one, and that phone stops: a new phone can then take over from it.';
    return make('form', { submit, class: 'row' }, kind, this.addColumn, make('p', { class: 'hint' }, hint));
  }

  /** Tells from which phone this one took over, and what it saved of it. */
  drawAccount(takenOver) {
    this.account.hidden = !takenOver;
    if (!takenOver) return;
    this.account.setAttribute('aria-label', `What phone ${this.name} saved of phone ${takenOver.from}`);
    this.account.replaceChildren(make('p', {}, takenOverWords(takenOver)), make('ul', {}, takenOver.transactions.map((it) => make('li', {}, savedWords(it)))));
  }

  /** Draws what the client of this phone shows. `takenOver` is null unless it took over from another. */
  draw({ isOnline, client, length, refusal, takenOver }) {
    this.tables = client.tables;
    this.switch.checked = isOnline;
    this.element.classList.toggle('is-offline', !isOnline);
    this.element.classList.toggle('is-stopped', refusal !== null);
    this.state.textContent = stateWords({ isOnline, client, length, refusal });
    this.rescue.hidden = refusal === null || !isOnline;
    this.drawAccount(takenOver);
    this.addColumn.disabled = tasks.dueKind(this.tables) !== null;
    const shown = tasks.tasksOf(this.tables);
    redraw(this.list, shown.map((task, at) => new TaskView(this, task, at, shown.length).item()), this.list);
  }
}
