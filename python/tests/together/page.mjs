// page.mjs URL: the shopping list in two browsers, which agree over the service at that WebSocket address.
import assert from 'node:assert/strict';
import { Chromium } from '../../../js/test/browser/cdp.mjs';
import { startServer } from '../../../js/test/server.mjs';

const files = await startServer(); // gives out the page alone
const address = `${files.origin}/examples/shopping/web/dist/?url=${encodeURIComponent(process.argv[2])}&token=${process.env.REALM_TOKEN}`;
const browser = await Chromium.start();

async function device() {
  const tab = await browser.tab(null, await browser.context());
  await tab.go(address);
  await tab.ready();
  return tab;
}

const add = (tab, title) => tab.evaluate(`(async () => {
  document.getElementById('title').value = ${JSON.stringify(title)};
  document.getElementById('add').requestSubmit();
})()`);
const titles = (tab) => tab.evaluate(`[...document.querySelectorAll('.name')].map((it) => it.value).sort().join()`);

const one = await device();
await add(one, 'Milk');
await one.until(`document.querySelectorAll('.name').length === 1`);
await one.evaluate('db.synced()');
const other = await device();
await other.until(`document.querySelectorAll('.name').length === 1`);
await add(other, 'Bread');
await one.until(`document.querySelectorAll('.name').length === 2`);
assert.equal(await titles(one), await titles(other));
assert.equal(await titles(one), 'Bread,Milk');
await browser.kill();
await files.close();
console.log('two browsers agree over the service');
