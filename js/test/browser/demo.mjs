// The shopping list of examples/shopping/web, as a person uses it.
import assert from 'node:assert/strict';
import fs from 'node:fs';
import { add, addressOf, agree, click, device, isUpToDate, press, row, shown, tag, type, visit } from './demo_hands.mjs';
import { CHROMIUM, test, wait } from './harness.mjs';

const pictures = process.env.PICTURES;
const faultsOf = (...tabs) => tabs.flatMap((it) => it.faults).filter((it) => !/WebSocket|ws:|ERR_|Failed to load/.test(it));

test('two devices go offline, edit, and agree, and who lost is told', async (bench) => {
  const browser = await bench.browser();
  const phone = await device(bench, browser, 'phone', { width: 420, height: 760 });
  for (const it of ['Oat milk', 'Rye bread', 'Tomatoes', 'Olive oil']) await add(phone, it);
  await tag(phone, 'Tomatoes', 'market');
  await phone.evaluate(`db.write((tx) => tx.lists.update(db.lists.first().id, { name: 'Groceries' }))`);
  await phone.evaluate('db.synced()');
  const laptop = await device(bench, browser, 'laptop', { width: 420, height: 760, isDark: true });
  await laptop.until(`document.querySelectorAll('#items li').length === 4`);
  bench.server.down(true);
  for (const tab of [phone, laptop]) await tab.until(`document.getElementById('pill').dataset.status === 'offline'`);
  await click(phone, 'Oat milk', '[aria-label^="One more"]', 2);
  await click(laptop, 'Oat milk', '[aria-label^="One more"]', 3);
  await click(phone, 'Rye bread', '.tick');
  await tag(laptop, 'Tomatoes', 'ripe');
  await tag(phone, 'Olive oil', 'big');
  await add(phone, 'Basil');
  await add(laptop, 'Coffee');
  await click(laptop, 'Olive oil', '.drop');
  await wait(1500);
  if (pictures) for (const [name, tab] of [['phone', phone], ['laptop', laptop]]) await tab.picture(`${pictures}/shopping_offline_${name}.png`);
  await phone.evaluate('db.stopSync()'); // the laptop's changes come first in the history
  bench.server.down(false);
  await agree(laptop);
  await phone.evaluate(`db.startSync({ url: ${JSON.stringify(bench.server.socketUrl)}, token: 'phone' })`);
  await agree(phone, laptop);
  const toast = await phone.evaluate(`document.getElementById('toast').textContent`);
  assert.match(toast, /“Olive oil”, which you changed, was removed on another device/);
  if (pictures) for (const [name, tab] of [['phone', phone], ['laptop', laptop]]) await tab.picture(`${pictures}/shopping_agreed_${name}.png`);
  const [one, other] = [await shown(phone), await shown(laptop)];
  assert.equal(one, other);
  for (const it of [/Oat milk 6 false/, /Tomatoes 1 false market\+ripe/, /Rye bread 1 true/, /Basil/, /Coffee/]) assert.match(one, it);
  assert.ok(!one.includes('Olive oil'));
  assert.deepEqual(faultsOf(phone, laptop), []);
  return one;
});

test('a reload while offline: the page, its objects and what is unsent are there, and are sent later', async (bench) => {
  const browser = await bench.browser();
  const tab = await visit(bench, browser, 'alone');
  await tab.until('navigator.serviceWorker.controller !== null');
  bench.server.down(true);
  await add(tab, 'Kept');
  await tab.renew();
  assert.match(await shown(tab), /Kept 1 false/);
  assert.ok((await tab.evaluate('db.stats()')).unsent >= 1);
  bench.server.down(false);
  await tab.evaluate('db.synced()');
  assert.equal((await tab.evaluate('db.stats()')).unsent, 0);
  return tab.evaluate(`document.getElementById('facts').textContent`);
});

test('a profile that was restored from a backup goes on by itself, and loses nothing', async (bench) => {
  let browser = await bench.browser();
  let tab = await visit(bench, browser, 'phone');
  await add(tab, 'Before the backup');
  await tab.evaluate('db.synced()');
  const { profile } = browser;
  await browser.kill();
  fs.cpSync(profile, `${profile}.backup`, { recursive: true, filter: (it) => !/Singleton/.test(it) });
  browser = await bench.browser(profile);
  tab = await visit(bench, browser, 'phone');
  await add(tab, 'After the backup');
  await tab.evaluate('db.synced()');
  await browser.kill();
  browser = await bench.browser(`${profile}.backup`);
  bench.server.down(true);
  tab = await browser.tab(null);
  await tab.go(addressOf(bench.server, 'phone'));
  bench.server.down(false);
  await tab.go(addressOf(bench.server, 'phone'));
  await tab.ready();
  await add(tab, 'Written in the restored profile');
  await tab.until(`document.querySelectorAll('#items li').length === 3 && ${isUpToDate}`);
  await tab.evaluate('db.synced()');
  return shown(tab);
});

test('it can be installed: the browser finds nothing that is wanting', async (bench) => {
  const tab = await visit(bench, await bench.browser(), 'installed');
  const { errors, data } = await tab.send('Page.getAppManifest');
  assert.deepEqual(errors, []);
  assert.equal(JSON.parse(data).display, 'standalone');
  assert.deepEqual((await tab.send('Page.getInstallabilityErrors')).installabilityErrors, []);
}, CHROMIUM);

test('names for a screen reader, the order of focus, and a narrow window', async (bench) => {
  const browser = await bench.browser();
  const tab = await device(bench, browser, 'reader', { width: 320, height: 420 });
  await add(tab, 'A title that is longer than the whole window of a phone is wide, and then some');
  await add(tab, 'Tomatoes, ripe ones');
  await tag(tab, 'Tomatoes, ripe ones', 'market');
  const { nodes } = await tab.send('Accessibility.getFullAXTree');
  const controls = nodes.filter((it) => !it.ignored && ['button', 'textbox', 'checkbox', 'listitem'].includes(it.role?.value));
  for (const it of controls.filter(({ role }) => role.value !== 'listitem')) assert.ok(it.name?.value, `a ${it.role.value} without a name`);
  assert.ok(controls.some((it) => it.name.value.startsWith('One more of A title')), 'the row is named');
  assert.equal(await tab.evaluate('document.documentElement.scrollWidth <= innerWidth'), true);
  const name = `${row('Tomatoes, ripe ones')}.querySelector('.name')`;
  assert.equal(await tab.evaluate(`${name}.scrollWidth <= ${name}.clientWidth`), true, 'a short title is seen whole');
  const order = [];
  await tab.evaluate(`document.getElementById('pill').focus()`);
  for (let at = 0; at < 9; at++) {
    order.push(await tab.evaluate(`document.activeElement.id || document.activeElement.className || document.activeElement.textContent`));
    await press(tab, 'Tab');
  }
  assert.equal(order[0], 'pill');
  assert.ok(order.includes('title') && order.includes('tick') && order.includes('name'), order.join());
  if (!pictures) return order.join(' ');
  await agree(tab);
  await wait(1600); // what is new is lit up for a while, and facts are drawn each second
  await tab.picture(`${pictures}/shopping_narrow.png`);
  return order.join(' ');
}, CHROMIUM);

const focus = (tab) => tab.evaluate(`document.activeElement.getAttribute('aria-label') ?? document.activeElement.tagName`);

test('by the keyboard alone: add, tick, tag, untag, remove, clear; the focus is never lost', async (bench) => {
  const tab = await device(bench, await bench.browser(), 'keys');
  await tab.evaluate(`document.getElementById('title').focus()`);
  for (const it of ['Milk', 'Rye bread', 'Tea']) {
    await type(tab, it);
    await tab.until(`${row(it)} !== undefined`);
  }
  await press(tab, 'Tab', 2);
  assert.equal(await focus(tab), 'Bought: Milk');
  await press(tab, ' ');
  await tab.until(`document.querySelector('#items li:last-child .name').value === 'Milk'`);
  assert.equal(await focus(tab), 'Bought: Milk');
  await tab.until(`!document.getElementById('clear').hidden`);
  await press(tab, 'Tab', 5);
  assert.equal(await focus(tab), 'Add a tag to Milk');
  await type(tab, 'cold');
  await tab.until(`${row('Milk')}.querySelector('.tag')?.textContent === 'cold'`);
  await tab.evaluate(`${row('Milk')}.querySelector('.tag').focus()`);
  await press(tab, 'Enter');
  await tab.until(`${row('Milk')}.querySelector('.tag') === null`);
  assert.equal(await focus(tab), 'Add a tag to Milk');
  await press(tab, 'Tab');
  await press(tab, 'Enter'); // clears what is bought
  await tab.until(`document.querySelectorAll('#items li').length === 2`);
  assert.equal(await focus(tab), 'What to buy');
  await tab.evaluate(`${row('Rye bread')}.querySelector('.drop').focus()`);
  await press(tab, 'Enter');
  await tab.until(`document.querySelectorAll('#items li').length === 1`);
  assert.equal(await focus(tab), 'Remove Tea');
  await press(tab, 'Enter');
  await tab.until(`document.querySelectorAll('#items li').length === 0`);
  assert.equal(await focus(tab), 'What to buy');
});

/** Of each text that is shown, whether it stands out from its ground: by WCAG 2.2 at least 4.5 to 1. */
const faintTexts = () => {
  const canvas = document.createElement('canvas').getContext('2d', { willReadFrequently: true });
  const bytesOf = (color) => {
    canvas.clearRect(0, 0, 1, 1);
    canvas.fillStyle = color;
    canvas.fillRect(0, 0, 1, 1);
    return [...canvas.getImageData(0, 0, 1, 1).data];
  };
  const light = ([r, g, b]) => [r, g, b].map((it) => it / 255).map((it) => (it <= 0.04045 ? it / 12.92 : ((it + 0.055) / 1.055) ** 2.4))
    .reduce((sum, it, at) => sum + it * [0.2126, 0.7152, 0.0722][at], 0);
  const groundOf = (element) => {
    for (let it = element; it; it = it.parentElement) {
      const color = bytesOf(getComputedStyle(it).backgroundColor);
      if (color[3] === 255) return color;
    }
    return [255, 255, 255];
  };
  const hasText = (it) => (it.type !== 'checkbox' && it.value) || it.placeholder || [...it.childNodes].some((child) => child.nodeType === 3 && child.data.trim());
  return [...document.querySelectorAll('body *')].filter((it) => hasText(it) && it.checkVisibility()).flatMap((it) => {
    const isEmpty = it.placeholder && !it.value;
    const [one, other] = [light(bytesOf(getComputedStyle(it, isEmpty ? '::placeholder' : null).color)), light(groundOf(it))];
    const ratio = (Math.max(one, other) + 0.05) / (Math.min(one, other) + 0.05);
    return ratio < 4.5 ? [`${it.className || it.id || it.tagName} ${ratio.toFixed(2)}`] : [];
  });
};

test('light and dark: each text stands out from its ground', async (bench) => {
  const browser = await bench.browser();
  for (const isDark of [false, true]) {
    const tab = await device(bench, browser, `looks ${isDark}`, { width: 420, height: 760, isDark });
    for (const it of ['Milk', 'Rye bread']) await add(tab, it);
    await tag(tab, 'Milk', 'cold');
    await click(tab, 'Rye bread', '.tick');
    await tab.evaluate(`document.activeElement.blur()`);
    await wait(1600); // what is new is lit up for a while
    assert.deepEqual(await tab.run(faintTexts), []);
  }
}, CHROMIUM);
