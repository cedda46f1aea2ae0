// What a person does at the shopping list of examples/shopping/web, and what they see.
import { wait } from './harness.mjs';

/** Where it was built: `dist`, or `bundled`. */
const BUILT = process.env.SHOPPING ?? 'dist';
export const addressOf = ({ origin, socketUrl }, token) => `${origin}/examples/shopping/web/${BUILT}/?url=${encodeURIComponent(socketUrl)}&token=${token}`;

/** An expression for the row of an item. */
export const row = (title) =>
  `[...document.querySelectorAll('#items li')].find((it) => it.querySelector('.name').value === ${JSON.stringify(title)})`;

/** A tab at the list, in the browser's own profile. */
export async function visit(bench, browser, token) {
  const tab = await browser.tab(addressOf(bench.server, token));
  await tab.ready();
  return tab;
}

/** A device: a tab at the list in a profile of its own. */
export async function device(bench, browser, token, look = null) {
  const tab = await browser.tab(null, await browser.context());
  if (look) await tab.look(look);
  await tab.go(addressOf(bench.server, token));
  await tab.ready();
  return tab;
}

export async function press(tab, key, times = 1) {
  for (let time = 0; time < times; time++) await tab.press(key);
}

export async function type(tab, text) {
  await tab.insert(text);
  await press(tab, 'Enter');
}

export async function add(tab, title) {
  await tab.evaluate(`document.getElementById('title').focus()`);
  await type(tab, title);
  await tab.until(`${row(title)} !== undefined`);
}

export async function tag(tab, title, text) {
  await tab.evaluate(`${row(title)}.querySelector('.add-tag').focus()`);
  await tab.insert(text);
  await tab.evaluate('document.activeElement.blur()');
  await tab.until(`${row(title)}.querySelector('.more').textContent.includes(${JSON.stringify(text)})`);
}

export async function click(tab, title, selector, times = 1) {
  for (let time = 0; time < times; time++) {
    await tab.evaluate(`${row(title)}.querySelector(${JSON.stringify(selector)}).click()`);
    await wait(60);
  }
}

export const titles = (tab) => tab.evaluate(`[...document.querySelectorAll('#items .name')].map((it) => it.value)`);
/** The whole list as one text. */
export const shown = (tab) => tab.evaluate(`[...document.querySelectorAll('#items li')].map((it) => [it.querySelector('.name').value,
  it.querySelector('output').textContent, it.querySelector('.tick').checked, [...it.querySelectorAll('.tag')].map((t) => t.textContent).join('+')].join(' ')).join('; ')`);

export const isUpToDate = `document.getElementById('pill').dataset.status === 'upToDate'`;
export const agree = async (...tabs) => {
  for (const tab of [...tabs, ...tabs]) await tab.evaluate('db.synced()');
  for (const tab of tabs) await tab.until(isUpToDate);
};
