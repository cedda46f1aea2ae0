// The shopping list of examples/shopping/web where something breaks: what a person saw in the list is there later.
import assert from 'node:assert/strict';
import { add, click, isUpToDate, row, titles, type, visit } from './demo_hands.mjs';
import { CHROMIUM, test, wait } from './harness.mjs';

const pictures = process.env.PICTURES;

/** Adds items one after the other by the form until the page ends; how many were seen in the list is kept. */
const addOn = async (from) => {
  const [input, form] = ['title', 'add'].map((it) => document.getElementById(it));
  for (let at = from; ; at++) {
    input.value = `Item ${at}`;
    form.requestSubmit();
    while (document.querySelectorAll('#items li').length <= at) await new Promise((done) => requestAnimationFrame(done));
    sessionStorage.seen = globalThis.seen = at + 1;
  }
};

/** That all which were seen are there, and at most so many more; answers how many there are. */
async function lookAt(tab, seen, more) {
  await tab.until(`document.querySelectorAll('#items li').length >= ${seen}`);
  const there = await titles(tab);
  assert.ok(there.length <= seen + more, `${there.length} are there, ${seen} were seen`);
  assert.deepEqual(there, there.map((_, at) => `Item ${at}`));
  return there.length;
}

test('the shopping list: a reload in the middle of writes', async (bench) => {
  const tab = await visit(bench, await bench.browser(), 'reloads');
  let there = 0;
  for (let round = 0; round < 5; round++) {
    await tab.evaluate(`void (${addOn})(${there})`);
    await tab.until(`globalThis.seen > ${there + 3}`);
    await wait(37 * round);
    await tab.renew();
    there = await lookAt(tab, Number(await tab.evaluate('sessionStorage.seen')), 1);
  }
  await tab.evaluate('db.synced()');
  return `${there} items over 5 reloads`;
});

test('the shopping list: the browser is killed in the middle of writes', async (bench) => {
  let browser = await bench.browser();
  let tab = await visit(bench, browser, 'kills');
  let there = 0;
  for (let round = 0; round < 3; round++) {
    await tab.evaluate(`void (${addOn})(${there})`);
    await tab.until(`globalThis.seen > ${there + 3}`);
    await wait(37 * round);
    const seen = await tab.evaluate('seen');
    await browser.kill();
    browser = await bench.browser(browser.profile);
    tab = await visit(bench, browser, 'kills');
    there = await lookAt(tab, seen, Infinity);
  }
  return `${there} items over 3 kills`;
});

/** Fills the storage with items of no list, and then by unticking the one of the list, until even that is refused. */
const fill = async () => {
  const refused = [];
  const untilRefused = async (work) => {
    for (const before = refused.length; refused.length === before; ) await db.write(work).catch((error) => refused.push(error.name));
  };
  for (const size of [1_000_000, 100_000, 10_000, 1000]) await untilRefused((tx) => tx.items.create({ title: 'x'.repeat(size), done: true }));
  const { id } = db.items.where({ title: 'Milk' }).first();
  await untilRefused((tx) => tx.items.update(id, { done: false }));
  return refused;
};

test('the shopping list: with a full quota a person is told, and what was typed is still there', async (bench) => {
  const tab = await visit(bench, await bench.browser(), 'full');
  await tab.look({ width: 420, height: 480 });
  await add(tab, 'Milk');
  await tab.evaluate('db.stopSync()');
  const { usage } = await tab.evaluate('navigator.storage.estimate()');
  const { origin } = bench.server;
  await tab.send('Storage.overrideQuotaForOrigin', { origin, quotaSize: usage + 3_000_000 });
  assert.ok((await tab.run(fill)).every((it) => it === 'StorageFull'));
  await tab.evaluate(`document.getElementById('title').focus()`);
  await type(tab, 'Rye bread');
  await tab.until(`/the storage is full/.test(document.getElementById('toast').textContent) && document.getElementById('title').value === 'Rye bread'`);
  if (pictures) await tab.picture(`${pictures}/shopping_full.png`);
  await click(tab, 'Milk', '.tick');
  await tab.until(`!${row('Milk')}.querySelector('.tick').checked`);
  assert.deepEqual(await titles(tab), ['Milk']);
  await tab.send('Storage.overrideQuotaForOrigin', { origin });
  await type(tab, '');
  await tab.until(`${row('Rye bread')} !== undefined && document.getElementById('title').value === ''`);
  await click(tab, 'Milk', '.tick');
  await tab.until(`${row('Milk')}.querySelector('.tick').checked`);
}, CHROMIUM);

test('the shopping list: two tabs show the same, and the other one goes on where the one with the files is closed', async (bench) => {
  const browser = await bench.browser();
  const [one, other] = [await visit(bench, browser, 'tabs'), await visit(bench, browser, 'tabs')];
  const facts = (tab, words) => tab.until(`document.getElementById('facts').textContent.includes(${JSON.stringify(words)})`);
  await facts(one, 'this tab has the files');
  await facts(other, 'by another tab');
  await add(one, 'Milk');
  await other.until(`${row('Milk')} !== undefined`);
  await add(other, 'Rye bread');
  await click(other, 'Milk', '.tick');
  await one.until(`${row('Rye bread')} !== undefined && ${row('Milk')}.querySelector('.tick').checked`);
  await one.close();
  await facts(other, 'this tab has the files');
  await add(other, 'Tea');
  await other.evaluate('db.synced()');
  await other.until(isUpToDate);
  assert.deepEqual(await titles(other), ['Rye bread', 'Tea', 'Milk']);
});
