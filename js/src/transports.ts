// Transports: one message there, one reply back.

import { NeedsAttention, Outdated, RealmError, Unauthorized } from './errors.js';
import { problem } from './problems.js';
import type { Stop } from './query.js';
import type { Transport } from './sync.js';

/** A token, or what hands one over: `wasRefused` asks for another one than before. */
export type TokenSource = string | ((wasRefused: boolean) => string | Promise<string>);

/** The token of a transport: a source is asked once, and again once the server refused what it gave. */
class Token {
  private wasRefused = false;
  private current: Promise<string> | null = null;
  constructor(private readonly source: TokenSource) {}

  get(): Promise<string> {
    return (this.current ??= this.asked());
  }

  private async asked(): Promise<string> {
    if (typeof this.source === 'string') return this.source;
    try {
      return await this.source(this.wasRefused);
    } catch (error) {
      this.current = null; // it is asked again at the next try
      throw error;
    }
  }

  renew(token: string): void {
    this.current = Promise.resolve(token);
    this.wasRefused = false;
  }

  /** The server refused the token. Throws where there is no other one to try: one is asked for once. */
  refused(why: Error): void {
    if (typeof this.source === 'string' || this.wasRefused) throw why;
    this.current = null;
    this.wasRefused = true;
  }

  accepted(): void {
    this.wasRefused = false;
  }
}

const headersOf = (token: string): Record<string, string> => (token ? { authorization: `Bearer ${token}` } : {});
const TOKEN_REFUSED = 401, OUTDATED = 410, TOO_LARGE = 413;
const WORDS: Record<number, string> = {
  401: 'the server refuses the token',
  403: 'the server refuses this device',
  404: 'the server has no such history',
  413: 'the server takes no message that is so large',
};

/** What a server says for good by a status, with its own words; null where it may be tried again. */
function refusal(status: number, said: string): Error | null {
  const words = WORDS[status];
  if (!words) return null;
  const text = said ? `${words}: ${said}` : words;
  return status === TOO_LARGE ? new NeedsAttention(problem('full', text, false)) : new Unauthorized(text);
}

/** The words of an answer, where it has some for people. */
async function wordsOf(response: Response): Promise<string> {
  if (!response.headers.get('content-type')?.startsWith('text/plain')) return '';
  return (await response.text()).split('\n')[0]!.slice(0, 200);
}

/**
 * An address, with the generation in which the client's file began behind the history's name. For messages the first is said by the address as it
 * is; whoever asks for something else without one is answered whatever the generation.
 */
function addressOf(url: string, generation: number, more = ''): URL {
  const at = new URL(url, globalThis.location?.href);
  if (generation !== 1 || more) at.pathname = at.pathname.replace(/(@\d+)?\/?$/, `@${generation}`);
  at.pathname += more;
  return at;
}
function newsAt(url: string, generation: number, after: number, wait: number): string {
  const at = addressOf(url.replace(/^ws/, 'http'), generation, '/news');
  at.searchParams.set('after', String(after));
  at.searchParams.set('wait', String(wait));
  return String(at);
}
function generationIn(headers: Headers): number | null {
  const told = Number(headers.get('realm-generation') ?? 0);
  return told > 0 ? told : null;
}

/** Waits for a history to grow: `GET URL/news?after=N&wait=S` is answered by `{"news":LENGTH}`, or by 204 after S seconds. */
async function* newsOf(at: (after: number, wait: number) => string, token: Token, signal: AbortSignal): AsyncIterableIterator<number> {
  for (let length = -1, seconds = 0; !signal.aborted; seconds = 25) {
    try {
      const response = await fetch(at(Math.max(0, length), seconds), { headers: headersOf(await token.get()), signal });
      if (response.status === 200) {
        const { news } = (await response.json()) as { news: number };
        if (length >= 0) yield news;
        length = news;
      } else if (response.status === 204) length = Math.max(0, length);
      else {
        if (response.status === OUTDATED) yield 0; // the loop is told why when it asks
        length = -1; // a server without news: the loop asks from time to time
        await later(60_000, signal);
      }
    } catch {
      await later(5_000, signal);
    }
  }
}

const later = (ms: number, signal: AbortSignal): Promise<void> =>
  new Promise((done) => {
    const timer = setTimeout(done, ms);
    (timer as { unref?(): void }).unref?.();
    signal.addEventListener('abort', () => {
      clearTimeout(timer);
      done();
    }, { once: true });
  });

/** A server over HTTP: a POST of the message, its reply in the body. `url` is the history's own address. */
export class HttpTransport implements Transport {
  generation = 1;
  private readonly token: Token;
  private readonly isWatching: boolean;

  /** With `news: false` the server isn't asked to tell by itself when the history has grown. */
  constructor(private readonly url: string, token: TokenSource = '', { news = true }: { news?: boolean } = {}) {
    this.token = new Token(token);
    this.isWatching = news;
  }

  async exchange(message: Uint8Array, signal: AbortSignal): Promise<Uint8Array> {
    for (;;) {
      const headers = { 'content-type': 'application/octet-stream', ...headersOf(await this.token.get()) };
      const response = await fetch(addressOf(this.url, this.generation), { method: 'POST', body: message, signal, headers });
      if (response.ok) {
        this.token.accepted();
        return new Uint8Array(await response.arrayBuffer());
      }
      if (response.status === OUTDATED) throw new Outdated(generationIn(response.headers));
      const refused = refusal(response.status, await wordsOf(response));
      if (response.status === TOKEN_REFUSED) this.token.refused(refused!);
      else throw refused ?? new RealmError(`the server answered ${response.status}`);
    }
  }

  watch(callback: () => void): Stop {
    const stopped = new AbortController();
    const at = (after: number, seconds: number): string => newsAt(this.url, this.generation, after, seconds);
    if (this.isWatching) void (async () => { for await (const _ of newsOf(at, this.token, stopped.signal)) callback(); })();
    return () => stopped.abort();
  }

  renew(token: string): void {
    this.token.renew(token);
  }
}

interface Waiting { done: (reply: Uint8Array) => void; fail: (error: Error) => void }

/**
 * A server over a WebSocket: a binary frame is a message or its reply, in turn; a text frame `{"news":LENGTH}` says that the history grew. The
 * token is the subprotocol `bearer.TOKEN` beside `realm`, since a page can set no header.
 */
export class WebSocketTransport implements Transport {
  generation = 1;
  private readonly token: Token;
  private socket: WebSocket | null = null;
  private waiting: Waiting | null = null;
  private watcher: () => void = () => {};
  private isClosed = false;

  /** `Socket` is the class of WebSockets where the platform has none of its own (Node before 22): that of the package `ws`. */
  constructor(private readonly url: string, token: TokenSource = '', private readonly Socket: typeof WebSocket = globalThis.WebSocket) {
    this.token = new Token(token);
  }

  private async connected(signal: AbortSignal): Promise<WebSocket> {
    if (this.socket?.readyState === 1) return this.socket;
    if (!this.Socket) throw new Unauthorized('this platform has no WebSocket: hand a class of them over, or use HTTP');
    const token = await this.token.get();
    const socket = new this.Socket(addressOf(this.url, this.generation), token ? ['realm', `bearer.${token}`] : ['realm']);
    socket.binaryType = 'arraybuffer';
    const isOpen = await new Promise<boolean>((done) => {
      socket.onopen = () => done(true);
      socket.onerror = socket.onclose = () => done(false);
      signal.addEventListener('abort', () => done(false), { once: true });
    });
    if (signal.aborted) {
      socket.close();
      throw new RealmError('no connection came about in time');
    }
    if (!isOpen) throw await this.unconnected(token, signal);
    this.token.accepted();
    socket.onerror = null;
    socket.onmessage = ({ data }) => this.take(data as ArrayBuffer | string);
    socket.onclose = ({ code, reason }) => this.lost(socket, this.ended(code, reason));
    this.socket = socket;
    return socket;
  }

  /** Why there is no connection. A page isn't told the status with which one was refused, so it is asked for by HTTP. */
  private async unconnected(token: string, signal: AbortSignal): Promise<Error> {
    const asked = newsAt(this.url, this.generation, 0xffffffff, 0);
    const response = await fetch(asked, { headers: headersOf(token), signal }).catch(() => null);
    if (!response) return new RealmError('the server cannot be reached');
    if (response.status === OUTDATED) return new Outdated(generationIn(response.headers));
    return this.refused(response.status, await wordsOf(response)) ?? new RealmError(`no connection came about (${response.status})`);
  }

  private refused(status: number, said: string): Error | null {
    const why = refusal(status, said);
    if (status !== TOKEN_REFUSED) return why;
    try {
      this.token.refused(why!);
      return new RealmError('the token has ended: another one is tried');
    } catch (error) {
      return error as Error;
    }
  }

  /** Why the server ended a connection: its codes are 4000 and a status, and 1009 for a message that is too large. */
  private ended(code: number, reason: string): Error {
    if (code === 4000 + OUTDATED) return new Outdated(Number(/is of generation (\d+): begin/.exec(reason)?.[1] ?? 0) || null);
    return this.refused(code === 1009 ? TOO_LARGE : code - 4000, reason) ?? new RealmError('the connection was lost');
  }

  private take(data: ArrayBuffer | string): void {
    if (typeof data === 'string') return this.watcher();
    const waiting = this.waiting;
    this.waiting = null;
    waiting?.done(new Uint8Array(data));
  }

  private lost(socket: WebSocket, why: Error): void {
    if (this.socket !== socket) return;
    this.socket = null;
    const waiting = this.waiting;
    this.waiting = null;
    if (waiting) waiting.fail(why);
    else if (!this.isClosed) {
      // Nobody waits: the loop connects again, and asks what came meanwhile.
      setTimeout(() => this.watcher(), 1000 * Math.random());
    }
  }

  async exchange(message: Uint8Array, signal: AbortSignal): Promise<Uint8Array> {
    const socket = await this.connected(signal);
    return new Promise((done, fail) => {
      this.waiting = { done, fail };
      // A late reply would be taken for the next one's.
      signal.addEventListener('abort', () => {
        if (this.socket === socket) this.socket = null;
        socket.close();
        fail(new RealmError('no reply came in time'));
      }, { once: true });
      socket.send(message);
    });
  }

  watch(callback: () => void): Stop {
    this.watcher = callback;
    return () => { this.watcher = () => {}; };
  }

  renew(token: string): void {
    this.token.renew(token);
    if (this.socket?.readyState === 1) this.socket.send(JSON.stringify({ token }));
  }

  close(): void {
    this.isClosed = true;
    this.socket?.close();
  }
}

/** By the address: `ws:` and `wss:` a WebSocket, else HTTP. */
export const transportOf = (url: string, token?: TokenSource): Transport =>
  /^wss?:/.test(url) ? new WebSocketTransport(url, token) : new HttpTransport(url, token);
