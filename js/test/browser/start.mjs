// The page of js/README.md in an empty folder with the package's archive, given out as it is said there.
import assert from 'node:assert/strict';
import { execFileSync, spawn } from 'node:child_process';
import fs from 'node:fs';
import os from 'node:os';
import path from 'node:path';
import { fileURLToPath } from 'node:url';
import { test } from './harness.mjs';

const PACKAGE = fileURLToPath(new URL('../..', import.meta.url));

/** An empty folder with the page and the package. */
function project() {
  const room = fs.mkdtempSync(path.join(os.tmpdir(), 'sdk-start-'));
  const [, page] = /^```html index.html\n([\s\S]*?)^```$/m.exec(fs.readFileSync(path.join(PACKAGE, 'README.md'), 'utf8'));
  fs.writeFileSync(path.join(room, 'index.html'), page);
  const npm = (...words) => execFileSync('npm', words, { cwd: room, encoding: 'utf8' }).trim();
  npm('install', '--silent', '--offline', '--no-audit', '--no-fund', `./${npm('pack', '--silent', PACKAGE)}`);
  return room;
}

/** The server of the README over a folder, and its address, which it says. */
async function serve(folder) {
  const server = spawn('python3', ['-u', '-m', 'http.server', '0', '--bind', '127.0.0.1'], { cwd: folder, stdio: ['ignore', 'pipe', 'ignore'] });
  for await (const piece of server.stdout.setEncoding('utf8').iterator({ destroyOnReturn: false })) {
    const found = /port (\d+)/.exec(piece);
    if (found) return { server, address: `http://127.0.0.1:${found[1]}/` };
  }
  throw new Error('python3 -m http.server ended');
}

const isListed = (title) => `[...document.querySelectorAll('li')].some((it) => it.textContent === ${JSON.stringify(title)})`;

test('the page of the README: two tabs have the same list, and it is there after a reload', async (bench) => {
  const folder = project();
  const { server, address } = await serve(folder);
  try {
    const browser = await bench.browser();
    const [one, other] = [await browser.tab(address), await browser.tab(address)];
    for (const [tab, title] of [[one, 'Milk'], [other, 'Bread']]) {
      await tab.until(`document.querySelector('form')?.onsubmit instanceof Function`);
      await tab.evaluate(`void (document.querySelector('input').value = '${title}', document.querySelector('form').requestSubmit())`);
    }
    for (const tab of [one, other]) for (const title of ['Milk', 'Bread']) await tab.until(isListed(title));
    await one.close();
    await other.go(address);
    await other.until(`${isListed('Milk')} && ${isListed('Bread')}`);
    assert.equal(await other.evaluate(`document.querySelector('ul').textContent`), 'BreadMilk');
  } finally {
    server.kill();
    fs.rmSync(folder, { recursive: true });
  }
});
