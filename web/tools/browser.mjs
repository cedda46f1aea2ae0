// A headless Chromium, driven over DevTools' protocol by two pipes, and a server for the files of the repository.

import { spawn } from 'node:child_process';
import fs from 'node:fs';
import http from 'node:http';
import os from 'node:os';
import path from 'node:path';

const TYPES = { '.html': 'text/html', '.js': 'text/javascript', '.mjs': 'text/javascript', '.css': 'text/css', '.wasm': 'application/wasm', '.json': 'application/json' };

/** Serves the files below `folder` on a free port of this machine: `{ origin, close }`. */
export async function serve(folder) {
  const server = http.createServer((request, response) => {
    const file = path.join(folder, decodeURIComponent(new URL(request.url, 'http://x').pathname));
    fs.readFile(file, (error, bytes) => {
      response.writeHead(error ? 404 : 200, { 'content-type': TYPES[path.extname(file)] ?? 'text/plain; charset=utf-8' });
      response.end(error ? 'not here' : bytes);
    });
  });
  await new Promise((done) => server.listen(0, '127.0.0.1', done));
  return { origin: `http://127.0.0.1:${server.address().port}`, close: () => server.close() };
}

/** How long Chromium may take to reply, on a busy machine. */
const SECONDS = 120;

/** A started Chromium, with `send(method, parameters)` to its one page. */
export class Browser {
  static async start(binary = process.env.CHROMIUM ?? 'chromium') {
    const browser = new Browser();
    browser.room = fs.mkdtempSync(path.join(os.tmpdir(), 'drive-'));
    const words = ['--headless', '--remote-debugging-pipe', '--no-first-run', '--disable-gpu', '--disable-dev-shm-usage', '--hide-scrollbars', `--user-data-dir=${browser.room}`];
    // Chromium refuses to run its sandbox as root.
    if (process.getuid() === 0) words.push('--no-sandbox');
    browser.process = spawn(binary, [...words, 'about:blank'], { stdio: ['ignore', 'ignore', 'ignore', 'pipe', 'pipe'] });
    browser.process.on('error', (error) => browser.fail(error));
    browser.process.on('exit', () => browser.fail(new Error('the browser ended')));
    for (const pipe of browser.process.stdio.slice(3)) pipe.on('error', (error) => browser.fail(error));
    browser.listen(browser.process.stdio[4]);
    const { targetInfos } = await browser.send('Target.getTargets');
    const { targetId } = targetInfos.find((target) => target.type === 'page');
    browser.session = (await browser.send('Target.attachToTarget', { targetId, flatten: true })).sessionId;
    for (const domain of ['Page', 'Runtime', 'Log', 'Network']) await browser.send(`${domain}.enable`);
    // As if its window were in front: what isn't may not use the clipboard.
    await browser.send('Emulation.setFocusEmulationEnabled', { enabled: true });
    return browser;
  }

  constructor() {
    this.waiting = new Map();
    /** Why nothing more comes from the browser, once that is so. */
    this.fault = null;
    this.count = 0;
    this.faults = [];
    this.requests = [];
  }

  fail(error) {
    this.fault ??= error;
    for (const { fail } of this.waiting.values()) fail(error);
    this.waiting.clear();
  }

  listen(pipe) {
    let rest = '';
    pipe.setEncoding('utf8');
    pipe.on('data', (piece) => {
      const parts = (rest + piece).split('\0');
      rest = parts.pop();
      for (const part of parts) this.take(JSON.parse(part));
    });
  }

  take({ id, method, params, result, error }) {
    if (method === 'Network.requestWillBeSent') this.requests.push(params.request.url);
    if (method === 'Runtime.exceptionThrown') this.faults.push(params.exceptionDetails.exception?.description ?? params.exceptionDetails.text);
    if (method === 'Log.entryAdded' && params.entry.level === 'error') this.faults.push(`${params.entry.text} ${params.entry.url ?? ''}`);
    const waiting = this.waiting.get(id);
    if (!waiting) return;
    this.waiting.delete(id);
    if (error) waiting.fail(new Error(error.message));
    else waiting.done(result);
  }

  send(method, params = {}) {
    if (this.fault) return Promise.reject(this.fault);
    this.count += 1;
    const message = { id: this.count, method, params, ...(this.session && { sessionId: this.session }) };
    return new Promise((done, fail) => {
      const late = setTimeout(() => fail(new Error(`the browser has not replied to ${method} after ${SECONDS} s`)), SECONDS * 1000);
      const settled = (then) => (value) => {
        clearTimeout(late);
        then(value);
      };
      this.waiting.set(message.id, { done: settled(done), fail: settled(fail) });
      this.process.stdio[3].write(`${JSON.stringify(message)}\0`);
    });
  }

  /** The value of an expression in the page; a promise is awaited. */
  async evaluate(expression) {
    const { result, exceptionDetails } = await this.send('Runtime.evaluate', { expression, awaitPromise: true, returnByValue: true, userGesture: true });
    if (exceptionDetails) throw new Error(exceptionDetails.exception?.description ?? exceptionDetails.text);
    return result.value;
  }

  /** Opens an address, and waits until the expression is true there. */
  async open(address, isReady = 'document.readyState === "complete"') {
    await this.send('Page.navigate', { url: address });
    await this.until(isReady);
  }

  async until(expression, seconds = 300) {
    for (const end = Date.now() + seconds * 1000; Date.now() < end; ) {
      if (await this.evaluate(expression).catch(() => false)) return;
      await new Promise((done) => setTimeout(done, 50));
    }
    throw new Error(`this never came true: ${expression}\n${this.faults.join('\n')}`);
  }

  /** The window's size and colours. */
  async look({ width, height, isDark = false, scale = 1 }) {
    await this.send('Emulation.setDeviceMetricsOverride', { width, height, deviceScaleFactor: scale, mobile: width < 600 });
    await this.send('Emulation.setEmulatedMedia', { features: [{ name: 'prefers-color-scheme', value: isDark ? 'dark' : 'light' }] });
  }

  /** A key, as a person presses it: `Tab`, `Enter`, ` `, or a word to type. */
  async press(key, modifiers = 0) {
    const codes = { Tab: 9, Enter: 13, ' ': 32, Escape: 27 };
    const text = { Enter: '\r', ' ': ' ' }[key];
    const said = { key, code: key === ' ' ? 'Space' : key, windowsVirtualKeyCode: codes[key], modifiers };
    await this.send('Input.dispatchKeyEvent', { type: text ? 'keyDown' : 'rawKeyDown', ...said, ...(text && { text }) });
    await this.send('Input.dispatchKeyEvent', { type: 'keyUp', ...said });
  }

  type(text) {
    return this.send('Input.insertText', { text });
  }

  /** The page as a PNG, from its top to its end or to `height`. */
  async picture(file, height = null) {
    const { cssContentSize } = await this.send('Page.getLayoutMetrics');
    const clip = { x: 0, y: 0, width: cssContentSize.width, height: height ?? cssContentSize.height, scale: 1 };
    const { data } = await this.send('Page.captureScreenshot', { format: 'png', clip, captureBeyondViewport: true });
    fs.mkdirSync(path.dirname(file), { recursive: true });
    fs.writeFileSync(file, Buffer.from(data, 'base64'));
  }

  async close() {
    if (!this.fault) {
      const ended = new Promise((done) => this.process.once('exit', done));
      const late = setTimeout(() => this.process.kill('SIGKILL'), SECONDS * 1000);
      this.session = undefined;
      this.send('Browser.close').catch(() => {});
      await ended;
      clearTimeout(late);
    }
    fs.rmSync(this.room, { recursive: true, force: true, maxRetries: 5 });
  }
}
