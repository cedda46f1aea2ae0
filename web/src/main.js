// The page: phones, their network, and what is drawn of the exchange after each step.

import { editsOf } from './changeset.js';
import { hueOf, make, redraw } from './elements.js';
import { Exchange, NotDone, SERVER } from './exchange.js';
import { drawLanes, legend, redrawLines } from './lanes.js';
import { PhoneView } from './phone.js';
import { SCENES } from './scenes.js';
import { storyOf } from './story.js';
import * as tasks from './tasks.js';
import { plural, transactionWords } from './words.js';

const $ = (id) => document.getElementById(id);
/** Between the steps of a scene, in milliseconds. */
const PAUSE = 900;
const FIRST_TASKS = ['Buy bread', 'Water the plants', 'Call the bank'];
const LETTERS = 'ABCDEFGHIJKLMNOPQRSTUVWXYZ';

let module;
let exchange;
let phones;
let story;
let took;

const isStopped = (name) => exchange.refusal(name) !== null;
const onlineNames = () => phones.filter((phone) => phone.isOnline && !isStopped(phone.name)).map((phone) => phone.name);
const phoneNames = () => phones.map((phone) => phone.name);

/** Does a step, draws all, and says what was done, or what went wrong. */
function step(said, work) {
  const began = performance.now();
  let failure = null;
  try {
    work();
  } catch (error) {
    failure = error;
  }
  took = performance.now() - began;
  draw();
  say(failure ? `${said} This failed: ${failure.message}.` : `${said} ${agreement().words}`);
  if (failure && !(failure instanceof NotDone)) throw failure;
}

const say = (words) => ($('status').textContent = words);

function act(name, edits, said) {
  const phone = phones.find((it) => it.name === name);
  step(`Phone ${name}: ${said}${phone.isOnline ? '' : ', offline'}.`, () => {
    const outcome = exchange.commit(name, edits);
    exchange.sync(onlineNames());
    if (outcome.kind !== 'made') throw new NotDone(`the program answered “${outcome.text}”`);
  });
}

function setOnline(name, isOnline) {
  phones.find((it) => it.name === name).isOnline = isOnline;
  step(`Phone ${name} is ${isOnline ? 'online' : 'offline'}.`, () => exchange.sync(onlineNames()));
}

function retry(name) {
  step(`Phone ${name} uploads and asks again.`, () => exchange.sync([name]));
}

/** A new phone takes over from one that is stopped, and takes its place in the page. */
function replace(name) {
  if (exchange.names.length === LETTERS.length) return say('No letter is left to name a new phone.');
  const at = phones.findIndex((phone) => phone.name === name);
  const heir = newPhone(exchange.names.length, [...phones[at].before, name]);
  step(`Phone ${heir.name} takes over from phone ${name}.`, () => {
    exchange.takeOver(heir.name, name);
    phones[at] = heir;
    placePhones();
    exchange.sync(onlineNames());
  });
  return heir.view.account.focus();
}

/** Who shows what: whether all phones show the server's objects, and else who differs. */
function agreement() {
  const shown = (node) => exchange.node(node).dump.join('\n');
  const others = phoneNames().filter((name) => shown(name) !== shown(SERVER));
  if (others.length === 0) return { isWhole: true, words: 'All phones and the server show the same.' };
  return { isWhole: false, words: `${others.map((name) => `Phone ${name}`).join(' and ')} ${others.length === 1 ? 'differs' : 'differ'} from the server.` };
}

function drawServer() {
  const history = exchange.history();
  const { isWhole, words } = agreement();
  $('agreement').textContent = words;
  $('agreement').className = isWhole ? 'agrees' : 'differs';
  $('length').textContent = `${plural(history.length, 'changeset')} in its history`;
  const byVersion = new Map(story.transactions.filter((it) => it.entry).map((it) => [it.entry.version, it]));
  const last = history.slice(-6).reverse().map((entry) => {
    const it = byVersion.get(entry.version);
    const words = transactionWords(editsOf(entry.hex)) || 'nothing is left of it';
    return make('li', { value: entry.version + 1 }, make('b', { class: hueOf(it.client) }, it.name), ` ${words}`);
  });
  $('history').replaceChildren(...last);
}

function drawPhones() {
  const { length } = exchange.history();
  for (const { name, isOnline, view } of phones) {
    const takenOver = story.columns.find((it) => it.kind === 'recovered' && it.node === name) ?? null;
    view.draw({ isOnline, client: exchange.node(name), length, refusal: exchange.refusal(name), takenOver });
  }
}

/** The commands with what each printed, and the report. Only drawn while it is open. */
function drawCommands() {
  if (!$('raw').open) return;
  const rows = exchange.acts.map(({ command, printed }, at) => make('tr', { id: `line-${at + 1}`, tabindex: '-1' }, make('th', { scope: 'row' }, String(at + 1)), make('td', {}, command), make('td', {}, printed)));
  $('lines').replaceChildren(...rows);
  $('report').textContent = exchange.report(phoneNames());
}

function draw() {
  const names = new Map(exchange.names.map((name) => [exchange.node(name).ident, name]));
  story = storyOf(exchange.acts, exchange.history(), names);
  drawPhones();
  drawServer();
  drawLanes({ frame: $('lanes'), summary: $('summary'), table: $('transactions') }, story, rowsOf());
  drawCommands();
  $('runs').textContent = `The program ran ${plural(exchange.runs, 'time')} so far; the last step took ${took.toFixed(0)} ms.`;
}

/** The server stands between the first phone and the others, and a phone below that from which it took over. */
function rowsOf() {
  const [first, ...others] = phones.map(({ name, before }) => [...before, name]);
  return [...first, SERVER, ...others.flat()];
}

function newPhone(place, before = []) {
  const name = LETTERS[place];
  return { name, isOnline: true, before, view: new PhoneView(name, { act, setOnline, retry, replace }) };
}

/** Puts the phones into the page, the server behind the first one. */
function placePhones() {
  const [first, ...others] = phones.map((phone) => phone.view.element);
  $('nodes').replaceChildren(first, $('server'), ...others);
  $('nodes').dataset.phones = phones.length;
}

/** A new exchange: the phones come in, the first one makes the tables and three tasks, and all are online. */
function begin(count) {
  exchange = new Exchange(module);
  phones = Array.from({ length: count }, (_, at) => newPhone(at));
  placePhones();
  const [first] = phones;
  step(`${plural(count, 'phone')} and a server.`, () => {
    for (const name of phoneNames()) exchange.join(name);
    exchange.commit(first.name, tasks.SCHEMA);
    for (const title of FIRST_TASKS) {
      const { tables } = exchange.node(first.name);
      exchange.commit(first.name, tasks.add(tables, first.view.newKey(), title, false));
    }
    exchange.sync(phoneNames());
  });
}

/** Plays a scene, a step at a time. It ends early where anything begins anew. */
async function play({ steps }) {
  begin(2);
  const mine = exchange;
  for (const { name, isOnline, isReplaced, said, edits } of steps) {
    await new Promise((done) => setTimeout(done, PAUSE));
    if (exchange !== mine) return;
    const { view } = phones.find((phone) => phone.name === name);
    if (edits) act(name, edits({ tables: view.tables, newKey: () => view.newKey() }), said);
    else if (isReplaced) replace(name);
    else setOnline(name, isOnline);
  }
}

/** Says which module runs here. A module that wasn't made from a proved program says so in large. */
async function drawBuild() {
  const answer = await fetch('build.json').catch(() => null);
  const build = answer?.ok ? await answer.json() : null;
  if (build) $('build').textContent = `This module: commit ${build.commit}, ${build.toolchain}, ${build.bytes} bytes, sha256 ${build.sha256}. The check said: ${build.verdict}`;
  $('unproved').hidden = Boolean(build?.proved);
}

async function copyScript() {
  await navigator.clipboard.writeText(exchange.script(phoneNames())).then(
    () => say('The script is copied. A shell runs it with the path of the program realm_sync.'),
    () => say('The browser did not let the page copy.'),
  );
}

function listen() {
  $('begin').addEventListener('submit', (event) => {
    event.preventDefault();
    begin(Number($('count').value));
  });
  $('scene').replaceChildren(...SCENES.map(({ name }, at) => make('option', { value: at }, name)));
  $('play').addEventListener('submit', (event) => {
    event.preventDefault();
    play(SCENES[$('scene').value]);
  });
  $('raw').addEventListener('toggle', drawCommands);
  $('copy').addEventListener('click', copyScript);
  $('lanes').addEventListener('click', (event) => {
    if (event.target.matches('a')) $('raw').open = true;
    drawCommands();
  });
  new ResizeObserver(() => redrawLines($('lanes'), story)).observe($('lanes').parentElement);
  redraw($('legend'), legend());
}

async function start() {
  try {
    const answer = await fetch('realm_sync.wasm');
    if (!answer.ok) throw new Error('web/realm_sync.wasm is not there: web/build.sh makes it');
    module = await WebAssembly.compile(await answer.arrayBuffer());
    await drawBuild();
    begin(2);
    listen();
    document.documentElement.dataset.ready = 'true';
  } catch (error) {
    say(`The page could not start: ${error.message}`);
    throw error;
  }
}

start();
