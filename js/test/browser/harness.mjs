// Tests one after the other, each with a server of its own and with browsers that are ended with it.
import { spawnSync } from 'node:child_process';
import fs from 'node:fs';
import os from 'node:os';
import path from 'node:path';
import { startServer } from '../server.mjs';
import { Chromium } from './cdp.mjs';
import { Firefox } from './firefox.mjs';

/** For a test that asks of the browser what DevTools alone have, and for one of what Firefox alone does. */
export const CHROMIUM = 'chromium', FIREFOX = 'firefox';
const BROWSERS = { [CHROMIUM]: Chromium, [FIREFOX]: Firefox };
const kind = process.env.BROWSER ?? CHROMIUM;

const tests = [];
export const test = (name, work, only = kind) => tests.push([name, work, only]);
export const wait = (ms) => new Promise((done) => setTimeout(done, ms));
export const EMPTY = '/js/test/browser/empty.html';

/** What a test has: a server, and browsers. */
class Bench {
  browsers = new Set();

  constructor(server) {
    this.server = server;
  }

  async browser(profile, ...words) {
    const browser = await BROWSERS[kind].start(profile, ...words);
    this.browsers.add(browser);
    return browser;
  }

  /** A browser whose profile is on a disk of its own, that has room for some 40 MB, and what makes room for 20 more. Null where this machine lets nobody
   * mount one. */
  async smallDisk() {
    if (spawnSync('unshare', ['-rm', 'true']).status !== 0) return null;
    const profile = fs.mkdtempSync(path.join(os.tmpdir(), 'sdk-small-'));
    const mounted = 'mount -t tmpfs -o size=70m tmpfs "$0" && head -c 20m /dev/zero >"$0/ballast" && exec "$@"';
    const browser = await Chromium.start(profile, ['unshare', '-rm', 'sh', '-c', mounted, profile]);
    this.browsers.add(browser);
    return { browser, makeRoom: () => fs.unlinkSync(`/proc/${browser.process.pid}/root${profile}/ballast`) };
  }

  /** A tab of an empty page with the package. */
  async tab(browser, context) {
    const tab = await browser.tab(this.server.origin + EMPTY, context);
    await tab.ready();
    return tab;
  }

  async end() {
    for (const browser of this.browsers) await browser.kill();
    for (const { profile } of this.browsers) fs.rmSync(profile, { recursive: true, force: true, maxRetries: 5, retryDelay: 200 });
    await this.server.close();
  }
}

export async function runTests(text) {
  let failed = 0;
  for (const [name, work, only] of tests.filter(([it]) => it.includes(text))) {
    const began = Date.now();
    const bench = new Bench(await startServer());
    try {
      const said = only === kind ? await work(bench) : `NOT TRIED in ${kind}`;
      console.log(`ok   ${name} (${((Date.now() - began) / 1000).toFixed(1)} s)${said ? `: ${said}` : ''}`);
    } catch (error) {
      failed += 1;
      console.log(`FAIL ${name}: ${error.stack}`);
    }
    await bench.end();
  }
  return failed ? 1 : 0;
}
