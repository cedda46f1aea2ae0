// A headless Firefox with any number of tabs, over WebDriver BiDi: as much of what cdp.mjs has as most tests take.
import { spawn } from 'node:child_process';
import fs from 'node:fs';
import { createRequire } from 'node:module';
import os from 'node:os';
import path from 'node:path';
import { Page } from './page.mjs';

const { WebSocket } = createRequire(import.meta.url)('/usr/share/nodejs/ws');
/** Nothing is asked of a person, and nothing of the network. */
const PREFERENCES = {
  'browser.shell.checkDefaultBrowser': false, 'browser.startup.page': 0, 'datareporting.policy.dataSubmissionEnabled': false, 'app.update.enabled': false,
  'dom.storageManager.prompt.testing': true, 'dom.storageManager.prompt.testing.allow': true, 'remote.prefs.recommended': true,
};

const KEYS = { Enter: '\uE007', Tab: '\uE004', ' ': ' ' };

/** What a script answered, as WebDriver BiDi spells it. */
function valueOf({ type, value }) {
  switch (type) {
    case 'array': return value.map(valueOf);
    case 'object': return Object.fromEntries(value.map(([name, it]) => [name, valueOf(it)]));
    case 'null': return null;
    case 'number': return Number(value);
    default: return value;
  }
}

export class Firefox {
  count = 0;
  waiting = new Map();
  tabs = new Map();

  /** Over a profile; where it is private, each window is. */
  static async start(profile = fs.mkdtempSync(path.join(os.tmpdir(), 'sdk-firefox-')), isPrivate = false) {
    const it = new Firefox();
    it.profile = profile;
    fs.writeFileSync(path.join(profile, 'user.js'), Object.entries({ ...PREFERENCES, 'browser.privatebrowsing.autostart': isPrivate }).map(([name, value]) => `user_pref("${name}", ${value});\n`).join(''));
    const words = ['--headless', '--no-remote', '--profile', profile, '--remote-debugging-port', '0'];
    it.process = spawn(process.env.FIREFOX ?? 'firefox-esr', words, { stdio: ['ignore', 'ignore', 'pipe'] });
    it.ended = new Promise((done) => it.process.once('exit', done));
    it.socket = new WebSocket(`${await it.address()}/session`);
    await new Promise((done, fail) => it.socket.once('open', done).once('error', fail));
    it.socket.on('error', () => {}).on('message', (text) => it.take(JSON.parse(text)));
    await it.send('session.new', { capabilities: {} });
    await it.send('session.subscribe', { events: ['log.entryAdded'] });
    return it;
  }

  /** Where it listens, which it says. */
  address() {
    let said = '';
    return new Promise((done, fail) => {
      this.process.stderr.setEncoding('utf8').on('data', (piece) => {
        said += piece;
        const found = /WebDriver BiDi listening on (ws:\S+)/.exec(said);
        if (found) done(found[1]);
      });
      this.process.once('exit', () => fail(new Error(`firefox ended: ${said}`)));
    });
  }

  take({ id, method, params, result, error, message }) {
    if (method === 'log.entryAdded') {
      const tab = this.tabs.get(params.source.context);
      (params.level === 'error' ? tab?.faults : tab?.log)?.push(params.text);
    }
    const { done, fail } = this.waiting.get(id) ?? {};
    this.waiting.delete(id);
    if (error) fail?.(new Error(`${error}: ${message}`));
    else done?.(result);
  }

  send(method, params = {}) {
    const id = ++this.count;
    return new Promise((done, fail) => {
      this.waiting.set(id, { done, fail });
      this.socket.send(JSON.stringify({ id, method, params }));
    });
  }

  /** A profile of its own, as another device has it. */
  async context() {
    return (await this.send('browser.createUserContext')).userContext;
  }

  async tab(url, userContext = undefined) {
    const { context } = await this.send('browsingContext.create', { type: 'tab', background: false, ...(userContext && { userContext }) });
    const tab = new Tab(this, context);
    this.tabs.set(context, tab);
    if (url) await tab.go(url);
    return tab;
  }

  async kill() {
    this.process.kill('SIGKILL');
    await this.ended;
    this.socket.terminate();
  }
}

class Tab extends Page {
  constructor(browser, context) {
    super();
    Object.assign(this, { browser, context });
  }

  async go(url) { await this.browser.send('browsingContext.navigate', { context: this.context, url, wait: 'none' }); }
  async reload() { await this.browser.send('browsingContext.reload', { context: this.context, wait: 'none' }); }

  async evaluate(expression) {
    const words = { expression, target: { context: this.context }, awaitPromise: true, userActivation: true };
    const { type, result, exceptionDetails } = await this.browser.send('script.evaluate', words);
    if (type === 'exception') throw new Error(exceptionDetails.text);
    return valueOf(result);
  }

  async insert(text) { await this.type(text); }
  async press(key) { await this.type(KEYS[key]); }
  async type(text) {
    await this.browser.send('browsingContext.activate', { context: this.context }); // (a tab behind another one gets no keys)
    const actions = [...text].flatMap((value) => [{ type: 'keyDown', value }, { type: 'keyUp', value }]);
    await this.browser.send('input.performActions', { context: this.context, actions: [{ type: 'key', id: 'keyboard', actions }] });
  }

  async look({ width, height }) {
    await this.browser.send('browsingContext.setViewport', { context: this.context, viewport: { width, height } });
  }

  async close() {
    this.browser.tabs.delete(this.context);
    await this.browser.send('browsingContext.close', { context: this.context });
  }
}
