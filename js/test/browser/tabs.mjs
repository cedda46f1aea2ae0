// Several tabs over one database.
import assert from 'node:assert/strict';
import { test, wait } from './harness.mjs';

/** Four tabs, and the key of an object that all add to; what the system has is enough, since the machine isn't stopped here. */
async function openTabs(bench, browser, storage, isSynced) {
  const sync = isSynced ? `, sync: { url: '${bench.server.socketUrl}', token: 'tabs' }` : '';
  const tabs = [];
  let id;
  for (let at = 0; at < 4; at++) {
    const tab = await bench.tab(browser);
    await tab.evaluate(`open({ storage: '${storage}', durability: 'relaxed'${sync} })`);
    id ??= await tab.evaluate(`db.write((tx) => tx.items.create({ title: '0' }))`);
    await tab.until(`db.items.get('${id}')`);
    tabs.push(Object.assign(tab, { name: at }));
  }
  return { tabs, id };
}

const hosts = async (tabs) => (await Promise.all(tabs.map((it) => it.evaluate('db.isHost')))).filter(Boolean).length;

/** Once another tab has the files and all show the same: what was added, and the marks. A tab that is closed goes on until its process ends. */
async function settled(tabs, id) {
  for (const end = Date.now() + 60_000; Date.now() < end; await wait(50)) {
    const isHosted = (await hosts(tabs)) === 1;
    const [one, ...others] = await Promise.all(tabs.map((it) => it.evaluate(`added('${id}')`)));
    if (isHosted && others.every((it) => JSON.stringify(it) === JSON.stringify(one))) return one;
  }
  throw new Error('the tabs never showed the same');
}

/** While all tabs add, the one with the files is closed, three times. Each transaction must stand once: as many were added as there are marks, all that
 * were answered are there, and of the closed tab a beginning. */
async function addAndClose({ tabs, id }, add, count) {
  let marks = [];
  const answered = [];
  for (let round = 0; tabs.length > 1; round++) {
    const [host, ...others] = tabs;
    const writing = others.map(async (tab) => {
      const mine = Array.from({ length: count }, (_, at) => `${tab.name}.${round}.${at}`);
      await tab.evaluate(`(async () => { for (const mark of ${JSON.stringify(mine)}) await ${add}('${id}', mark); })()`);
      answered.push(...mine);
    });
    host.evaluate(`(async () => { localStorage.last = -1; for (let at = 0; ; at++) { await ${add}('${id}', 'host.${round}.' + at); localStorage.last = at; } })()`).catch(() => {});
    await wait(120);
    await host.close();
    await Promise.all(writing);
    tabs.shift();
    const { sum, marks: all } = await settled(tabs, id);
    assert.equal(sum, all.length, 'each transaction counts once');
    const missing = answered.filter((it) => !all.includes(it));
    assert.deepEqual(missing, [], 'what was answered is there');
    const ofHost = all.filter((it) => it.startsWith(`host.${round}.`)).map((it) => Number(it.split('.')[2])).sort((a, b) => a - b);
    assert.deepEqual(ofHost, ofHost.map((_, at) => at), 'of the closed tab a beginning');
    assert.ok(ofHost.length > Number(await tabs[0].evaluate('localStorage.last')), 'all that it was answered');
    marks = all;
  }
  return `${marks.length} additions`;
}

for (const storage of ['opfs', 'indexeddb']) {
  for (const isSynced of [false, true]) {
    test(`${storage}: four tabs read, change and write at once, and the one with the files is closed${isSynced ? ', while it syncs' : ''}`, async (bench) => {
      const opened = await openTabs(bench, await bench.browser(), storage, isSynced);
      assert.deepEqual(await Promise.all(opened.tabs.map((it) => it.evaluate('db.isHost'))), [true, false, false, false]);
      return addAndClose(opened, 'add', 40);
    });
  }
}

test('four tabs that add and read nothing, and the one with the files is closed', async (bench) =>
  addAndClose(await openTabs(bench, await bench.browser(), 'opfs', false), 'addBlind', 60));

for (const storage of ['opfs', 'indexeddb']) {
  test(`${storage}: what several tabs asked of a tab that ended without an answer stands once`, async (bench) => {
    const browser = await bench.browser();
    const host = await bench.tab(browser);
    const makeWorker = `() => new Worker('/js/test/browser/mute_worker.js', { type: 'module' })`;
    await host.evaluate(`open({ storage: '${storage}', makeWorker: ${makeWorker} })`);
    const id = await host.evaluate(`db.write((tx) => tx.items.create({ title: '0' }))`);
    const others = [];
    for (let at = 0; at < 3; at++) {
      others.push(await bench.tab(browser));
      await others[at].evaluate(`open({ storage: '${storage}' })`);
      await others[at].until(`db.items.get('${id}')`);
    }
    await others[0].evaluate(`new BroadcastChannel('mute').postMessage(true)`);
    await wait(200);
    for (const [at, tab] of others.entries()) {
      await tab.evaluate(`void (globalThis.asked = ${at === 2 ? 'add' : 'addBlind'}('${id}', 'mark ${at}'))`);
      await wait(200);
    }
    await host.close();
    for (const tab of others) await tab.evaluate('asked');
    const { sum, marks } = await settled(others, id);
    assert.deepEqual([sum, marks], [3, ['mark 0', 'mark 1', 'mark 2']]);
  });
}

test('opfs: what was noted and never written is written by the next tab, also where another one was quicker', async (bench) => {
  const browser = await bench.browser();
  const host = await bench.tab(browser);
  await host.evaluate(`open({ storage: 'opfs', makeWorker: () => new Worker('/js/test/browser/stuck_worker.js', { type: 'module' }) })`);
  const id = await host.evaluate(`db.write((tx) => tx.items.create({ title: '0' }))`);
  const [quick, slow] = [await bench.tab(browser), await bench.tab(browser)];
  for (const tab of [quick, slow]) {
    await tab.evaluate(`open({ storage: 'opfs' })`);
    await tab.until(`db.items.get('${id}')`);
  }
  // The slow one asks what became of its transaction when the quick one has written.
  await slow.evaluate(`{
    const { postMessage } = BroadcastChannel.prototype;
    BroadcastChannel.prototype.postMessage = function (said) { setTimeout(() => postMessage.call(this, said), said.ask?.method === 'outcome' ? 1500 : 0); };
    new BroadcastChannel('stuck').postMessage(true);
  }`);
  await wait(200);
  await slow.evaluate(`void (globalThis.asked = addBlind('${id}', 'slow'))`);
  await wait(300);
  await quick.evaluate(`void (globalThis.asked = addBlind('${id}', 'quick'))`);
  await wait(100);
  await host.close();
  for (const tab of [quick, slow]) await tab.evaluate('asked');
  const { sum, marks } = await settled([quick, slow], id);
  assert.deepEqual([sum, marks], [2, ['quick', 'slow']]);
});

test('a worker that cannot be loaded, and one that is not there any more, are errors', async (bench) => {
  const tab = await bench.tab(await bench.browser());
  const said = await tab.evaluate(`open({ makeWorker: () => new Worker('/nowhere.js', { type: 'module' }) }).catch((error) => error.message)`);
  assert.match(said, /the worker failed to load.*worker\.js is served beside index\.js/);
  assert.equal(await tab.evaluate(`open({ wasmUrl: '/nowhere.wasm' }).catch((error) => error.message)`), "/nowhere.wasm can't be loaded (404): it is served beside index.js, or wasmUrl says where");
  assert.equal(await tab.evaluate('open()'), 0);
});

test('a database is closed while it is opened, and is deleted where it is closed', async (bench) => {
  const browser = await bench.browser();
  const [one, other] = [await bench.tab(browser), await bench.tab(browser)];
  for (const storage of ['opfs', 'indexeddb']) {
    await one.evaluate(`open({ storage: '${storage}' }).then(() => db.write((tx) => tx.days.create({ day: 1 })))`);
    await other.evaluate(`open({ storage: '${storage}' })`);
    assert.equal(await other.evaluate(`realm.deleteDatabase('x').catch((error) => error.name)`), 'Busy');
    await one.evaluate('db.close()');
    await other.until('db.isHost');
    await other.evaluate('db.close()');
    assert.equal(await other.evaluate(`open({ storage: '${storage}' })`), 1);
    await other.evaluate(`db.close().then(() => realm.deleteDatabase('x'))`);
    assert.equal(await other.evaluate(`open({ storage: '${storage}' })`), 0);
    await other.evaluate(`db.close().then(() => realm.deleteDatabase('x'))`);
  }
});

test('a token of a tab reaches the worker, also after the tab with the files was closed', async (bench) => {
  const browser = await bench.browser();
  const open = `open({ sync: { url: '${bench.server.socketUrl}', retryFrom: 20, token: async (wasRefused) => (wasRefused ? 'good' : 'refused') } })`;
  const [one, other] = [await bench.tab(browser), await bench.tab(browser)];
  await one.evaluate(open);
  await one.evaluate('db.synced()');
  await other.evaluate(open);
  await one.close();
  await other.until('db.isHost');
  await other.evaluate(`db.write((tx) => tx.days.create({ day: 5 }))`);
  await other.evaluate('db.synced()');
  assert.equal((await other.evaluate('db.stats()')).unsent, 0);
});
