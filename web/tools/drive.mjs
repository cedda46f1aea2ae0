// Drives the page in headless Chromium as a person would, by mouse and by keyboard, and checks what it shows: offline edits on
// two phones that agree after they come back, columns that can't be merged and a phone that takes over, labels, focus and width.
// Ends with status 1 at the first check that fails. With a folder as its argument, pictures go there.

import assert from 'node:assert/strict';
import { execFileSync } from 'node:child_process';
import fs from 'node:fs';
import os from 'node:os';
import path from 'node:path';
import { fileURLToPath } from 'node:url';
import { Browser, serve } from './browser.mjs';

const top = fileURLToPath(new URL('../..', import.meta.url));
const pictures = process.argv[2];
const WIDE = { width: 1280, height: 900 };
const NARROW = { width: 360, height: 740 };

let browser;
let loaded;
const page = (expression) => browser.evaluate(expression);
const check = (what, got, wanted) => {
  assert.deepEqual(got, wanted, what);
  console.log(`drive: ${what}`);
};
/** A picture of the page from its top to the end of the lanes. */
const picture = async (name) => pictures && browser.picture(path.join(pictures, `page_${name}.png`), await page(`document.querySelector('main > section').getBoundingClientRect().bottom + scrollY + 16`));

/** Clicks in the middle of an element with the mouse. */
async function click(selector) {
  const { x, y } = await page(`(() => {
    const it = document.querySelector(${JSON.stringify(selector)});
    it.scrollIntoView({ block: 'center' });
    const { left, top, width, height } = it.getBoundingClientRect();
    return { x: left + width / 2, y: top + height / 2 };
  })()`);
  for (const type of ['mousePressed', 'mouseReleased']) await browser.send('Input.dispatchMouseEvent', { type, x, y, button: 'left', clickCount: 1 });
}

/** Writes a text over what stands in a field, and ends with the Enter key. */
async function write(selector, text) {
  await click(selector);
  await page(`document.querySelector(${JSON.stringify(selector)}).select()`);
  await browser.type(text);
  await browser.press('Enter');
}

/** Opens what more can be done with a task, does it, and closes it. */
async function withMore(phone, key, work) {
  await click(`#${phone}-${key}-summary`);
  await work(`#${phone}-${key}`);
  if (await page(`document.querySelector('#${phone}-${key}-summary') !== null`)) await click(`#${phone}-${key}-summary`);
}

const addTag = (phone, key, tag) => withMore(phone, key, (id) => write(`${id}-tag`, tag));

const addNote = (phone, key, name, text) =>
  withMore(phone, key, async (id) => {
    await click(`${id}-at`);
    await browser.type(name);
    await write(`${id}-value`, text);
  });

/** What a phone shows: for each task its title, votes, whether it is done, and its tags and notes. */
const shown = (phone) => page(`Array.from(document.querySelectorAll('.phone[aria-labelledby="${phone}-name"] .tasks > li'), (it) => ({
  title: it.querySelector('.title').value,
  votes: it.querySelector('.vote').textContent,
  done: it.querySelector('input[type=checkbox]').checked,
  chips: Array.from(it.querySelectorAll('.chips li'), (chip) => chip.firstChild.textContent),
}))`);
const titles = async (phone) => (await shown(phone)).map((task) => task.title);
const text = (id, part) => page(`document.querySelector('#${id}${part ? ` ${part}` : ''}').textContent`);
const fates = () => page(`Object.fromEntries(Array.from(document.querySelectorAll('#transactions tbody tr'), (row) => [row.querySelector('.chip').childNodes[1].textContent, row.lastChild.textContent]))`);
const task = (title, votes = 0, done = false, chips = []) => ({ title, votes: `▲ ${votes}`, done, chips });

async function both(what, wanted) {
  check(`phone A ${what}`, await shown('A'), wanted);
  check(`phone B ${what}`, await shown('B'), wanted);
}

/** From here on the browser has no network. Until now it asked this server alone. */
async function leavesTheNetwork() {
  const strangers = browser.requests.filter((url) => !url.startsWith(`${server.origin}/`) && !url.startsWith('data:'));
  check(`the page's ${browser.requests.length} files came from its own server`, strangers, []);
  loaded = browser.requests.length;
  await browser.send('Network.emulateNetworkConditions', { offline: true, latency: 0, downloadThroughput: -1, uploadThroughput: -1 });
}

async function editsOffline() {
  await both('begins with three tasks', ['Buy bread', 'Water the plants', 'Call the bank'].map((title) => task(title)));
  await picture('before');
  await click('#A-online');
  await click('#B-online');
  await write('#A-A1-title', 'Buy rye bread');
  await write('#B-A1-title', 'Buy white bread');
  await write('#A-new', 'Wash the car');
  await write('#B-new', 'Mow the lawn');
  await click('#A-A2-vote');
  await click('#B-A2-vote');
  await addTag('A', 'A1', 'shop');
  await addTag('B', 'A1', 'today');
  await addNote('A', 'A2', 'where', 'balcony');
  await addNote('B', 'A2', 'how', 'a little');
  await click('#A-A3-done');
  await withMore('B', 'A3', (id) => click(`${id}-erase`));
  check('offline, phone A shows its own changes', await shown('A'), [
    task('Buy rye bread', 0, false, ['#shop']),
    task('Water the plants', 1, false, ['where: balcony']),
    task('Call the bank', 0, true),
    task('Wash the car'),
  ]);
  check('offline, phone B shows its own', await shown('B'), [
    task('Buy white bread', 0, false, ['#today']),
    task('Water the plants', 1, false, ['how: a little']),
    task('Mow the lawn'),
  ]);
  check('the page says who differs', await text('agreement'), 'Phone A and Phone B differ from the server.');
  check('phone A says what waits', await text('A-state'), 'Offline. 6 changesets made here wait. It has taken 4 changesets of the server’s.');
  await picture('offline');
}

async function agreesAfterwards() {
  await click('#B-online');
  await click('#A-online');
  await both('shows what was made on both', [
    task('Buy white bread', 0, false, ['#shop', '#today']),
    task('Water the plants', 2, false, ['how: a little', 'where: balcony']),
    task('Wash the car'),
    task('Mow the lawn'),
  ]);
  check('the page says that all agree', await text('agreement'), 'All phones and the server show the same.');
  check('and tells it to a screen reader', await text('status'), 'Phone A is online. All phones and the server show the same.');
  const { 'A·5': title, 'A·6': insertion, 'A·7': vote, 'A·10': done, 'B·1': later } = await fates();
  check('the earlier title was dropped', title, 'dropped: title of A1 = “Buy rye bread”');
  check('the later title stands', later, 'as made');
  check('the vote stands', vote, 'as made');
  check('the earlier insertion was carried to its place', insertion, 'moved: A4 put at place 3');
  check('what was done to an erased task was dropped', done, 'dropped: done of A3 = true');
  await picture('after');
}

/** The page's script, as its button copies it, in a shell with the program itself, where that was built. */
async function runsInAShell() {
  const native = process.env.REALM_SYNC ?? path.join(top, 'crates/realm_sync/out/realm_sync');
  if (!fs.existsSync(native)) return console.log('drive: the program was not built, so it was not compared with the page');
  await page(`document.getElementById('raw').open = true`);
  await browser.until(`document.querySelectorAll('#lines tr').length > 0`);
  await browser.send('Browser.grantPermissions', { origin: server.origin, permissions: ['clipboardReadWrite', 'clipboardSanitizedWrite'] });
  await click('#copy');
  await browser.until(`document.getElementById('status').textContent.startsWith('The script is copied.')`, 20);
  const script = await page('navigator.clipboard.readText()');
  const printed = await page(`Array.from(document.querySelectorAll('#lines td:last-child'), (cell) => cell.textContent)`);
  const room = fs.mkdtempSync(path.join(os.tmpdir(), 'page-'));
  const wanted = execFileSync('sh', ['-s', native], { input: script, env: { ...process.env, TMPDIR: room }, encoding: 'utf8', maxBuffer: 1 << 28 });
  fs.rmSync(room, { recursive: true });
  assert.equal(printed.join('') + (await text('report')), wanted);
  console.log(`drive: in a shell the program prints the same for the page’s ${printed.length} commands`);
  await page(`document.getElementById('raw').open = false`);
}

/** Runs in the page: the texts whose contrast with their ground is below 4.5, the least that WCAG 2 asks of plain text (AA). */
function faintTexts() {
  const probe = document.createElement('canvas').getContext('2d', { willReadFrequently: true });
  const bytes = (colour) => {
    probe.clearRect(0, 0, 1, 1);
    probe.fillStyle = colour;
    probe.fillRect(0, 0, 1, 1);
    return probe.getImageData(0, 0, 1, 1).data;
  };
  const light = (colour) => {
    const [red, green, blue] = Array.from(bytes(colour), (byte) => (byte <= 10 ? byte / 255 / 12.92 : ((byte / 255 + 0.055) / 1.055) ** 2.4));
    return 0.2126 * red + 0.7152 * green + 0.0722 * blue;
  };
  const ground = (element) => {
    const own = getComputedStyle(element).backgroundColor;
    return bytes(own)[3] === 255 || !element.parentElement ? own : ground(element.parentElement);
  };
  const faint = new Set();
  const look = (element, text, part) => {
    const isIdle = element.closest('[aria-disabled="true"], :disabled, .unseen');
    if (!text.trim() || isIdle || !element.checkVisibility()) return;
    const [darker, lighter] = [light(getComputedStyle(element, part).color), light(ground(element))].sort((left, right) => left - right);
    const contrast = (lighter + 0.05) / (darker + 0.05);
    if (contrast < 4.5) faint.add(`${text.trim().slice(0, 40)}: ${contrast.toFixed(1)}`);
  };
  const texts = document.createTreeWalker(document.body, NodeFilter.SHOW_TEXT);
  while (texts.nextNode()) look(texts.currentNode.parentElement, texts.currentNode.textContent);
  for (const input of document.querySelectorAll('input[type=text], input[type=number]')) look(input, input.value);
  for (const input of document.querySelectorAll('input[placeholder]')) look(input, input.placeholder, '::placeholder');
  return [...faint];
}

/** Names of controls, the contrast of texts in light and dark, and the width of a narrow window, as the page stands. */
async function isReadAndFits(name) {
  const { nodes } = await browser.send('Accessibility.getFullAXTree');
  const roles = new Set(['button', 'textbox', 'checkbox', 'switch', 'combobox', 'spinbutton', 'link', 'region', 'DisclosureTriangle']);
  const controls = nodes.filter((node) => !node.ignored && roles.has(node.role?.value));
  check(`each of ${controls.length} controls has a name`, controls.filter((node) => !node.name?.value).map((node) => node.role.value), []);
  for (const isDark of [false, true]) {
    await browser.look({ ...NARROW, isDark });
    check(`all text stands out from its ground, ${isDark ? 'dark' : 'light'}`, await page(`(${faintTexts})()`), []);
    check(`nothing lies beside a window of 360 pixels, ${isDark ? 'dark' : 'light'}`, await page('document.documentElement.scrollWidth'), NARROW.width);
    if (isDark && name === 'after') await picture('narrow_dark');
  }
  await browser.look({ ...WIDE, isDark: true });
  await picture(`${name}_dark`);
  await browser.look(WIDE);
}

/** By keys alone: from the top of the page on, phone A goes offline and online, and a task is added. */
async function worksByKeyboard() {
  await click('h1');
  const focused = () => page('document.activeElement.id');
  const order = [];
  while ((await focused()) !== 'A-new' && order.length < 20) {
    await browser.press('Tab');
    order.push(await focused());
    if (order.at(-1) === 'A-online') await browser.press(' ');
  }
  check('the Tab key goes from the top to phone A', order.slice(-2), ['A-online', 'A-new']);
  check('the space bar took phone A offline', (await text('A-state')).startsWith('Offline.'), true);
  await browser.type('Bake a cake');
  await browser.press('Enter');
  check('the Enter key added a task', (await titles('A')).at(-1), 'Bake a cake');
  check('and the focus is where it was', await focused(), 'A-new');
  await browser.press('Tab', 8);
  await browser.press(' ');
  check('back online, both have it', (await titles('B')).at(-1), 'Bake a cake');
  await page(`document.getElementById('B-A1-vote').focus()`);
  await browser.press('Enter');
  check('after a vote the focus is at the same button', await focused(), 'B-A1-vote');
}

async function columnsThatDiffer() {
  await click('#A-online');
  await click('#B-online');
  await click('#B-A4-vote');
  for (const [phone, kind] of [['A', 'Text'], ['B', 'Int']]) {
    await page(`document.querySelector('.phone[aria-labelledby="${phone}-name"] .schema').open = true`);
    await page(`document.getElementById('${phone}-kind').value = '${kind}'`);
    await click(`.phone[aria-labelledby="${phone}-name"] .schema button`);
  }
  await click('#A-online');
  check('the first phone’s column is taken', (await text('A-state')).startsWith('It has taken all'), true);
  await click('#B-online');
  check('the second phone stops, and says why, and that another can take over', await text('B-state'), 'Stopped: two devices define one column differently. It takes nothing more, and keeps all that it made (2 changesets of its own). A new phone can take over from it, and save of that what can be saved.');
  check('what it made before the column is on the server', (await shown('A'))[2].votes, '▲ 1');
  check('the column was refused', (await fates())['B·9'], 'refused by the server: two devices define one column differently (code 2)');
  await write('#B-new', 'Written on a stopped phone');
  check('it still keeps what is made on it', (await titles('B')).at(-1), 'Written on a stopped phone');
  await write('#B-A2-due', '7');
  await click('#B-A2-vote');
  await write('#A-new', 'Feed the cat');
  await withMore('B', 'A5', (id) => click(`${id}-erase`));
  await picture('stopped');
}

/** A new phone takes over from the stopped one, by the keyboard, and all agree again. */
async function takesOver() {
  const before = await shown('A');
  await page(`document.getElementById('B-online').focus()`);
  await browser.press('Tab');
  check('the Tab key goes from the switch to its replacement', await page('document.activeElement.id'), 'B-replace');
  await browser.press('Enter');
  check('a new phone stands where the stopped one stood', await page(`Array.from(document.querySelectorAll('.phone h2'), (it) => it.textContent)`), ['Phone A', 'Phone C']);
  check('the focus is at what it saved', await page('document.activeElement.id'), 'C-account');
  check('a screen reader is told', await text('status'), 'Phone C takes over from phone B. All phones and the server show the same.');
  check('it says how much it saved', await text('C-account', 'p'), 'Phone C took over from phone B. Of 5 changesets that the server had refused or had not seen: 2 saved, 1 saved in part, 2 lost.');
  check('and of each what became of it, with the reason', await page(`Array.from(document.querySelectorAll('#C-account li'), (it) => it.textContent)`), [
    'B·9 is lost: column due, Int (a column of that name is there already, code 12).',
    'B·10 is saved as C·2: new task B2 “Written on a stopped phone” at place 6.',
    'B·11 is lost: due of A2 = 7 (the value doesn’t fit the column there, code 21).',
    'B·12 is saved as C·4: votes of A2 + 1.',
    'B·13 is saved in part, as C·5: A5 erased. Lost of it: place 5 taken out (the list there has another length, code 23).',
  ]);
  const [bread, plants, car, lawn, , cat] = before;
  const wanted = [bread, { ...plants, votes: '▲ 3' }, car, lawn, task('Written on a stopped phone'), cat];
  check('phone A has what was saved', await shown('A'), wanted);
  check('and so has the new phone', await shown('C'), wanted);
  check('all agree', await text('agreement'), 'All phones and the server show the same.');
  await picture('replaced');
  await click('#C-B2-down');
  check('the new phone’s next change reaches phone A', (await titles('A')).slice(-2), ['Feed the cat', 'Written on a stopped phone']);
}

async function threePhones() {
  await page(`document.getElementById('count').value = '3'`);
  await click('#begin button');
  check('three phones begin with the same tasks', await titles('C'), ['Buy bread', 'Water the plants', 'Call the bank']);
  await click('#B-online');
  await click('#B-A3-up');
  await click('#C-A1-vote');
  await click('#B-online');
  check('a task that moved offline moves for the third phone', await titles('C'), ['Buy bread', 'Call the bank', 'Water the plants']);
  check('and all agree', await text('agreement'), 'All phones and the server show the same.');
}

/** What both do is there once. */
async function theSameOnBoth() {
  await page(`document.getElementById('count').value = '2'`);
  await click('#begin button');
  await click('#A-online');
  await click('#B-online');
  for (const phone of ['A', 'B']) {
    await click(`.phone[aria-labelledby="${phone}-name"] .schema summary`);
    await click(`.phone[aria-labelledby="${phone}-name"] .schema button`);
    await withMore(phone, 'A2', (id) => click(`${id}-erase`));
  }
  await click('#A-online');
  await click('#B-online');
  check('a column that both add, and a task that both erase, is one change', [await text('agreement'), await titles('B')], ['All phones and the server show the same.', ['Buy bread', 'Call the bank']]);
  check('and the page says so', (await fates())['B·1'], 'another did it too: column due, Text');
}

/** Plays a scene until a text stands in the status. */
async function plays(place, last) {
  await page(`document.getElementById('scene').selectedIndex = ${place}`);
  await click('#play button');
  await browser.until(`document.getElementById('status').textContent.startsWith(${JSON.stringify(last)})`);
}

/** Scenes that the page plays by itself. */
async function scenes() {
  await plays(3, 'Phone A is online.');
  check('in a scene, an erased task is gone on both', [await titles('A'), await titles('B')], Array(2).fill(['Buy bread', 'Water the plants']));
  check('and what was done to it was dropped', Object.values(await fates()).filter((fate) => fate.startsWith('dropped')).length, 2);
  await plays(4, 'Phone C takes over');
  check('in another, a new phone takes over, and all agree', await text('agreement'), 'All phones and the server show the same.');
  check('and it has both votes of the old one', (await shown('C')).map((it) => it.votes), ['▲ 1', '▲ 1', '▲ 0']);
}

const server = await serve(path.join(top, 'web'));
browser = await Browser.start();
try {
  await browser.look(WIDE);
  await browser.open(`${server.origin}/index.html`, `document.documentElement.dataset.ready === 'true'`);
  await leavesTheNetwork();
  await editsOffline();
  await agreesAfterwards();
  await isReadAndFits('after');
  await worksByKeyboard();
  await columnsThatDiffer();
  await takesOver();
  await isReadAndFits('replaced');
  await runsInAShell();
  await threePhones();
  await theSameOnBoth();
  await scenes();
  check('nothing was asked of the network any more', browser.requests.slice(loaded), []);
  check('the page met no error', browser.faults, []);
  console.log('drive: all as expected');
} finally {
  await browser.close();
  server.close();
}
