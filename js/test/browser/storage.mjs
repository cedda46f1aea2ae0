// What was answered is there: after reloads, after kills, where the disk is full, and with encrypted files.
import assert from 'node:assert/strict';
import { CHROMIUM, FIREFOX, test, wait } from './harness.mjs';

for (const storage of ['opfs', 'indexeddb']) {
  const open = `open({ storage: '${storage}' })`;

  test(`${storage}: a reload in the middle of writes`, async (bench) => {
    const browser = await bench.browser();
    const tab = await bench.tab(browser);
    let answered = -1;
    for (let round = 0; round < 6; round++) {
      const count = await tab.evaluate(open);
      answered = round ? await tab.evaluate('Number(sessionStorage.last)') : -1;
      assert.ok(count >= answered + 1 && count <= answered + 2, `${count} days, ${answered} answered`);
      await tab.evaluate(`void writeOn(${count})`);
      await wait(300 + round * 37);
      await tab.renew();
    }
    assert.ok(answered > 5, `only ${answered} writes`);
    return `${answered + 1} writes over 6 reloads`;
  });

  test(`${storage}: the browser is killed in the middle of writes`, async (bench) => {
    let browser = await bench.browser();
    let answered = -1;
    const all = [];
    for (let round = 0; round < 4; round++) {
      const tab = await bench.tab(browser);
      const count = await tab.evaluate(open);
      all.push(`${answered + 1} answered, ${count} there`);
      assert.ok(count >= answered + 1, all.at(-1));
      await tab.evaluate(`void writeOn(${count})`);
      await wait(500);
      answered = await tab.evaluate('last');
      await browser.kill();
      browser = await bench.browser(browser.profile);
    }
    return all.join('; ');
  });

  test(`${storage}: encrypted files open with their key alone`, async (bench) => {
    const browser = await bench.browser();
    const tab = await bench.tab(browser);
    const sealed = (byte) => `open({ storage: '${storage}', encryptionKey: new Uint8Array(32).fill(${byte}) })`;
    assert.equal(await tab.evaluate(sealed(7)), 0);
    await tab.evaluate(`(async () => { for (let day = 0; day < 5; day++) await db.write((tx) => tx.days.create({ day })); await db.close(); })()`);
    assert.equal(await tab.evaluate(`${sealed(8)}.catch((error) => error.name)`), 'WrongKey');
    assert.equal(await tab.evaluate(`${open}.catch((error) => error.name)`), 'WrongKey');
    assert.equal(await tab.evaluate(sealed(7)), 5);
  });
}

/** Writes days of a megabyte and more each, until five in a row are refused. Answers what became of each. */
const fill = `(async () => {
  const said = [];
  const noise = () => Array.from(crypto.getRandomValues(new Uint8Array(50000)), (it) => it.toString(16).padStart(2, '0')).join('');
  for (let day = 1; day < 100 && (said.length < 5 || said.slice(-5).includes('done')); day++) {
    const note = Array.from({ length: 12 }, noise).join('');
    said.push(await db.write((tx) => tx.days.create({ day, note })).then(() => 'done', (error) => error.name));
  }
  return said;
})()`;
const days = 'db.days.toArray().map((it) => it.day)';
const daysDone = (said) => [0, ...said.flatMap((it, place) => (it === 'done' ? [place + 1] : []))];

for (const storage of ['opfs', 'indexeddb']) {
  test(`${storage}: a disk that has no room left refuses transactions, and with room made the database goes on`, async (bench) => {
    const small = await bench.smallDisk();
    if (!small) return 'NOT TRIED: this machine lets nobody mount a small disk';
    const tab = await bench.tab(small.browser);
    const open = `open({ storage: '${storage}' })`;
    await tab.evaluate(`${open}.then(() => db.write((tx) => tx.days.create({ day: 0 })))`);
    const said = await tab.evaluate(fill);
    // (a browser that says no more than that a write failed is told by the name of that)
    assert.ok(said.includes('done') && said.every((it) => ['done', 'StorageFull', 'StorageFailed'].includes(it)), said.join());
    assert.deepEqual(await tab.evaluate(days), daysDone(said));
    small.makeRoom();
    await tab.until(`db.write((tx) => tx.days.create({ day: 999 })).then(() => true)`);
    await tab.renew();
    await tab.evaluate(open);
    assert.deepEqual(await tab.evaluate(days), [...daysDone(said), 999]);
    return `${said.filter((it) => it === 'done').length} writes, then ${said.at(-1)}`;
  }, CHROMIUM);
}

test('opfs: a full quota refuses a transaction, and the database goes on', async (bench) => {
  const { origin } = bench.server;
  const tab = await bench.tab(await bench.browser());
  await tab.evaluate(`open({ storage: 'opfs' }).then(() => db.write((tx) => tx.days.create({ day: 0 })))`);
  const { usage } = await tab.evaluate('navigator.storage.estimate()');
  await tab.send('Storage.overrideQuotaForOrigin', { origin, quotaSize: usage + 3_000_000 });
  const said = await tab.evaluate(fill);
  assert.ok(said.includes('StorageFull'), said.join());
  assert.ok(said.every((it) => it === 'done' || it === 'StorageFull'), said.join());
  const shown = await tab.evaluate(days);
  assert.deepEqual(shown, daysDone(said));
  await tab.send('Storage.overrideQuotaForOrigin', { origin });
  await tab.evaluate(`db.write((tx) => tx.days.create({ day: 999, note: 'x'.repeat(100000) }))`);
  await tab.renew();
  await tab.evaluate(`open({ storage: 'opfs' })`);
  assert.deepEqual(await tab.evaluate(days), [...shown, 999]);
  return said.join(' ');
}, CHROMIUM);

test('indexeddb: a database transaction that is aborted undoes its write, and the database goes on', async (bench) => {
  const tab = await bench.tab(await bench.browser());
  const open = `open({ storage: 'indexeddb', makeWorker: () => new Worker('/js/test/browser/bad_worker.js', { type: 'module' }) }).then(() => db.days.toArray().map((it) => it.day))`;
  await tab.evaluate(open);
  const said = await tab.evaluate(`(async () => {
    const said = [];
    for (let day = 1; day <= 12; day++) said.push(await db.write((tx) => tx.days.create({ day, note: 'x' })).then(() => 'done', (error) => error.name));
    return said;
  })()`);
  assert.ok(said.filter((it) => it === 'StorageFailed').length >= 3 && said.every((it) => it === 'done' || it === 'StorageFailed'), said.join());
  const shown = await tab.evaluate('db.days.toArray().map((it) => it.day)');
  assert.deepEqual(shown, said.map((it, place) => (it === 'done' ? place + 1 : null)).filter((it) => it !== null));
  await tab.renew();
  assert.deepEqual(await tab.evaluate(open), shown);
  return said.join(' ');
});

for (const name of ['no_handles', 'private']) {
  test(`a browser without OPFS (${name}): IndexedDB is taken by itself`, async (bench) => {
    const tab = await bench.tab(await bench.browser());
    const open = `open({ makeWorker: () => new Worker('/js/test/browser/${name}_worker.js', { type: 'module' }) })`;
    assert.equal(await tab.evaluate(open), 0);
    assert.equal(await tab.evaluate('db.storage'), 'indexeddb');
    await tab.evaluate('db.write((tx) => tx.days.create({ day: 1 }))');
    await tab.renew();
    assert.equal(await tab.evaluate(open), 1);
  });
}

test('a private window of Firefox, which gives no OPFS out', async (bench) => {
  const tab = await bench.tab(await bench.browser(undefined, true));
  assert.equal(await tab.evaluate('open()'), 0);
  assert.equal(await tab.evaluate('db.storage'), 'indexeddb');
  await tab.evaluate('db.write((tx) => tx.days.create({ day: 1 }))');
  await tab.renew();
  assert.equal(await tab.evaluate('open()'), 1);
  await tab.evaluate(`db.close().then(() => realm.deleteDatabase('x'))`);
  assert.equal(await tab.evaluate('open()'), 0);
}, FIREFOX);
