// The background loop of sync: what there is to say is said, what came is taken, and the state is told.

import { Endless, NeedsAttention, Outdated, RealmError, Refused, StorageFailed, Unauthorized, errorOfProblem } from './errors.js';
import { outdated, problem, problemOf, type Problem } from './problems.js';
import type { Stop } from './query.js';

/** Brings one message to the server and its reply back. */
export interface Transport {
  /** Rejects where no reply came: it is tried again. After an `Unauthorized` it isn't. */
  exchange(message: Uint8Array, signal: AbortSignal): Promise<Uint8Array>;
  /** Calls back when the server may have something new; without it the loop asks every `pollEvery` ms. */
  watch?(callback: () => void): Stop;
  /** A token in place of the one before. */
  renew?(token: string): void;
  /** In which generation of the server's history this client's file began: 1, unless the server said another one (`Outdated`). */
  generation?: number;
  close?(): void;
}

export type SyncState =
  | { readonly status: 'off' | 'connecting' }
  /** `retryAt` is a moment in ms since the epoch, `unsent` how many transactions wait. */
  | { readonly status: 'offline'; readonly reason: string; readonly retryAt: number; readonly unsent: number }
  | { readonly status: 'syncing'; readonly unsent: number }
  | { readonly status: 'upToDate'; readonly at: number }
  | { readonly status: 'recovering'; readonly problem: Problem }
  | { readonly status: 'attention'; readonly problem: Problem };

/** What the loop asks of the client. */
export interface Syncable {
  next(): Promise<Uint8Array>;
  /** Answers whether the message says that nothing is behind the client's cursor. */
  take(message: Uint8Array): Promise<boolean>;
  upgrade(): Promise<void>;
  unsent(): number;
  /** A text that changes with each step forward. */
  progress(): string;
}

/** Times in ms. */
export interface LoopOptions {
  readonly transport: Transport;
  readonly pollEvery: number;
  readonly retryFrom: number;
  readonly retryMost: number;
  readonly timeout: number;
  /** After so many messages without the end of the history a round ends with `Endless`. */
  readonly mostMessages: number;
}

/** So many messages in a row may leave a client as it was: an Upload and a question do where they are repeated. */
const MOST_IDLE = 16;

/** Ends after so long, or with the signal. */
function pause(ms: number, signal: AbortSignal): Promise<void> {
  return new Promise((done) => {
    const timer = setTimeout(done, Math.min(ms, 0x7fffffff));
    signal.addEventListener('abort', () => {
      clearTimeout(timer);
      done();
    }, { once: true });
  });
}

/** A transport on which one exchange goes after the other. */
export function inTurn(transport: Transport): Transport {
  let queue: Promise<unknown> = Promise.resolve();
  return {
    exchange: (message, signal) => {
      const reply = queue.then(() => transport.exchange(message, signal));
      queue = reply.catch(() => {});
      return reply;
    },
    ...(transport.watch && { watch: (callback: () => void) => transport.watch!(callback) }),
    ...(transport.renew && { renew: (token: string) => transport.renew!(token) }),
    ...(transport.close && { close: () => transport.close!() }),
    get generation(): number { return transport.generation ?? 1; },
    set generation(generation: number) { transport.generation = generation; },
  };
}

export class SyncLoop {
  state: SyncState = { status: 'connecting' };
  private isStopped = false;
  private wake = new AbortController();
  private current: AbortController | null = null;
  private fails = 0;
  private isRepeated = false;
  private hasWork = true;
  private mustUpgrade = false;
  /** Why nothing is sent until `resume`. */
  private held: Problem | null = null;
  /** Those who wait for a round that began after they asked. */
  private waiting: { done: () => void; fail: (error: Error) => void }[] = [];
  private readonly stopWatching: Stop;

  constructor(
    private readonly node: Syncable,
    readonly options: LoopOptions,
    private readonly tell: (state: SyncState) => void,
    /** Answers whether the problem was settled. */
    private readonly onProblem: (problem: Problem) => Promise<boolean>,
  ) {
    this.stopWatching = options.transport.watch?.(() => this.poke()) ?? (() => {});
    void this.run();
  }

  /** There may be something to do. */
  poke(): void {
    if (this.held) return;
    this.hasWork = true;
    this.wake.abort();
  }

  /** Something was committed: it is sent at once, but where the loop waits before it tries again. */
  committed(): void {
    if (this.state.status === 'offline') this.set({ ...this.state, unsent: this.unsent() });
    else if (['upToDate', 'syncing', 'connecting'].includes(this.state.status)) this.poke();
  }

  /** Goes on after a problem that was settled. */
  resume(): void {
    this.held = null;
    this.isRepeated = false;
    this.fails = 0;
    this.poke();
  }

  /** Resolves once all that was committed is in the history, and all that the history had is here. */
  synced(): Promise<void> {
    if (this.held) return Promise.reject(errorOfProblem(this.held));
    return new Promise((done, fail) => {
      this.waiting.push({ done, fail });
      this.poke();
    });
  }

  stop(): void {
    this.isStopped = true;
    this.stopWatching();
    this.current?.abort();
    this.wake.abort();
    this.release(new RealmError('sync was stopped'));
    this.options.transport.close?.();
  }

  private release(error: Error): void {
    for (const it of this.waiting.splice(0)) it.fail(error);
  }

  private set(state: SyncState): void {
    this.state = state;
    if (!this.isStopped) this.tell(state);
  }

  /** None where the files couldn't be opened again. */
  private unsent(): number {
    try {
      return this.node.unsent();
    } catch {
      return 0;
    }
  }

  private async sleep(ms: number): Promise<void> {
    this.wake = new AbortController();
    if (!this.hasWork && !this.isStopped) await pause(ms, this.wake.signal);
  }

  private async run(): Promise<void> {
    while (!this.isStopped) {
      this.hasWork = false;
      const waiting = this.waiting.length;
      try {
        await this.round();
        if (this.isStopped) return;
        this.fails = 0;
        this.isRepeated = false;
        this.set({ status: 'upToDate', at: Date.now() });
        for (const it of this.waiting.splice(0, waiting)) it.done();
        await this.sleep(this.options.pollEvery);
      } catch (error) {
        if (this.isStopped) return;
        await this.failed(error as Error);
      }
    }
  }

  private async failed(error: Error): Promise<void> {
    if (error instanceof Unauthorized) return this.stopFor(problem('unauthorized', error.message, false));
    if (error instanceof Outdated) return this.stopFor(outdated(error));
    if (error instanceof NeedsAttention) return this.stopFor(error.problem);
    if (error instanceof Refused) {
      const what = problemOf(error, this.isRepeated);
      const wasRepeated = this.isRepeated;
      this.isRepeated = true;
      if (what !== 'again' && what !== 'upgrade') return this.stopFor({ ...what, conflict: error.conflict });
      this.mustUpgrade = what === 'upgrade';
      this.hasWork = !wasRepeated; // at once, and with pauses where it comes to the same again
      if (this.hasWork) return;
    }
    this.fails += 1;
    const wait = Math.min(this.options.retryMost, this.options.retryFrom * 2 ** (this.fails - 1)) * (0.75 + Math.random() / 2);
    if (error instanceof StorageFailed) this.tellAttention(problem('storage', error.message, false));
    else this.set({ status: 'offline', reason: error.message, retryAt: Date.now() + wait, unsent: this.unsent() });
    await this.sleep(wait);
  }

  private async stopFor(found: Problem): Promise<void> {
    if (await this.onProblem(found)) {
      this.isRepeated = false;
      return;
    }
    if (this.isStopped) return;
    this.held = found;
    this.hasWork = false;
    this.tellAttention(found);
    while (this.held && !this.isStopped) await this.sleep(0x7fffffff);
  }

  private tellAttention(found: Problem): void {
    this.set({ status: 'attention', problem: found });
    this.release(errorOfProblem(found));
  }

  private async exchange(message: Uint8Array): Promise<Uint8Array> {
    this.current = new AbortController();
    const late = setTimeout(() => this.current?.abort(), this.options.timeout);
    try {
      return await this.options.transport.exchange(message, this.current.signal);
    } finally {
      clearTimeout(late);
    }
  }

  /** Sends and takes until a reply says that the end of the history is reached and nothing is unsent. */
  private async round(): Promise<void> {
    if (this.mustUpgrade) await this.node.upgrade();
    this.mustUpgrade = false;
    let before = '';
    for (let count = 0, idle = 0, isDone = false; !isDone && !this.isStopped; count++) {
      const message = await this.node.next();
      const now = this.node.progress();
      idle = now === before ? idle + 1 : 0;
      before = now;
      if (count === this.options.mostMessages || idle === MOST_IDLE) {
        throw new Endless(`sync didn't reach the end of the history in ${count} messages`);
      }
      const unsent = this.node.unsent();
      if (this.state.status !== 'upToDate' || unsent > 0) this.set({ status: 'syncing', unsent });
      const isEnd = await this.node.take(await this.exchange(message));
      isDone = isEnd && this.node.unsent() === 0;
    }
  }
}
