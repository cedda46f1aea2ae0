// The one place that has the database's files: it commits, syncs, and tells every tab what changed. In a browser it lives in the worker of
// the tab that writes, in Node in the process itself.

import { conflictIn } from './conflict.js';
import { Status, expectDone, textOf, utf8, type Reply, type Standing } from './door.js';
import { Engine } from './engine.js';
import {
  BadRequest, BrokenEdit, Closed, NeedsAttention, Outdated, RealmError, Refused, StorageFailed, Unauthorized, formOfError, storageError, type ErrorForm,
} from './errors.js';
import { LostEdits, type LostForm } from './lost.js';
import type { Put } from './mirror.js';
import { isTakenOverByItself, type Problem } from './problems.js';
import { Takeover, born, type Recovery } from './recovery.js';
import type { Files, OpenFile } from './storage.js';
import { SyncLoop, inTurn, type LoopOptions, type SyncState, type Transport } from './sync.js';
import { Talk, refusalOf } from './talk.js';
import { parseLine, textOfKey } from './values.js';

export interface Commit {
  readonly ms: number;
  readonly edits: readonly string[];
  /** Whether the edits rest on nothing that was read, so that they may be committed at a later version. */
  readonly isBlind: boolean;
}
export type Committed = { readonly number: number } | { readonly error: ErrorForm } | 'stale';
/** What became of transactions, and the version at which a tab sees it. */
export interface Answers {
  readonly answers: readonly Committed[];
  readonly epoch: string;
  readonly version: number;
}
export interface Snapshot {
  readonly epoch: string;
  readonly version: number;
  /** The number of the client's last transaction. */
  readonly last: number;
  readonly dump: string;
  readonly sync: SyncState;
  readonly storage: string;
}
export interface Delta {
  readonly epoch: string;
  readonly version: number;
  readonly last: number;
  readonly puts: readonly Put[];
  /** Under which name its transactions were handed over, and how many they are: they end with number `last`. */
  readonly by: string;
  readonly count: number;
}
export type HostEvent =
  | ({ readonly event: 'delta' } & Delta)
  | ({ readonly event: 'snapshot' } & Snapshot)
  | { readonly event: 'sync'; readonly state: SyncState }
  | { readonly event: 'recovered'; readonly recovery: Recovery }
  | { readonly event: 'lost'; readonly lost: readonly LostForm[] }
  /** A tab that has a source of tokens is to hand one over: another one than before where that was refused. */
  | { readonly event: 'token'; readonly wasRefused: boolean };

export interface SyncOptions extends Partial<Omit<LoopOptions, 'transport'>> {
  transport: Transport;
  /**
   * What is done where a new client can take over: `recover` (it does, and saves what is unsent) or `ask` (sync needs attention, until
   * `db.recover()`). By default it recovers where this device's client is retired, restored or damaged, and asks where the schemas differ
   * or the server is another one.
   */
  onProblem?: 'recover' | 'ask';
}

const nameOf = (generation: number): string => `client-${generation}`;
// Why a new client takes over is written down before it has a file: where it was cut off, it goes on for the same reason.
const reasonName = (generation: number): string => `reason-${generation}`;
/** Of the server's history, where that isn't 1. */
const SERVER_GENERATION = 'generation';
const NOTE = 4096;

/** Opens a file for some work, and closes it. */
async function inFile<T>(files: Files, name: string, work: (file: OpenFile) => T | Promise<T>): Promise<T> {
  const file = await files.open(name);
  try {
    return await work(file);
  } finally {
    await file.close();
  }
}

/** Keeps something small beside the client's file. */
const keepNote = (files: Files, name: string, note: unknown): Promise<void> =>
  inFile(files, name, (file) => file.apply([{ place: 0, bytes: utf8(JSON.stringify(note).padEnd(NOTE)) }, 'sync']));

/** Null where it was cut off before it was written. */
async function noteOf<T>(files: Files, name: string): Promise<T | null> {
  const text = textOf(await inFile(files, name, (file) => file.read()));
  try {
    return JSON.parse(text) as T;
  } catch {
    return null;
  }
}

/** What ends a recovery: any other error, as of the network, is tried again. */
const FINAL = [Refused, StorageFailed, NeedsAttention, Unauthorized, Outdated];
const DEFAULTS = { retryFrom: 500, retryMost: 60_000, timeout: 60_000, mostMessages: 100_000 };
/** How long a page may take to hand a token over, in ms. */
const TOKEN_TIME = 30_000;
const wait = (ms: number): Promise<void> => new Promise((done) => setTimeout(done, ms));

export class Host {
  private readonly epoch = crypto.randomUUID();
  private version = 1;
  private talk: Talk;
  private loop: SyncLoop | null = null;
  private state: SyncState = { status: 'off' };
  private readonly listeners = new Set<(event: HostEvent) => void>();
  private queue: Promise<unknown> = Promise.resolve();
  private isClosed = false;
  private syncOptions: SyncOptions | null = null;
  private recovering: Promise<boolean> | null = null;
  /** Ends the message of a new client that waits for its answer. */
  private asking: AbortController | null = null;
  /** Whether a new client took over since the last time that all was up to date. */
  private hasRecovered = false;
  private waitingForToken: ((token: string | null) => void)[] = [];
  /** After a failure, until the files are open again. */
  private isBroken = false;
  private serverGeneration = 1;

  private constructor(
    private readonly module: WebAssembly.Module,
    private readonly files: Files,
    private engine: Engine,
    private generation: number,
    /** A client that has begun to take this one's place, and why. */
    private heir: number | null,
    private reason: Problem | null,
  ) {
    this.talk = new Talk(engine);
  }

  static async start(module: WebAssembly.Module, files: Files): Promise<Host> {
    try {
      return await Host.opened(module, files);
    } catch (error) {
      throw storageError(error);
    }
  }

  private static async opened(module: WebAssembly.Module, files: Files): Promise<Host> {
    const numbers = (await files.names()).map((it) => Number(/^client-(\d+)$/.exec(it)?.[1] ?? 0));
    const found = numbers.filter((it) => it > 0).sort((a, b) => a - b);
    const generation = found[0] ?? 1;
    const engine = await Engine.open(module, await files.open(nameOf(generation)));
    try {
      await born(engine);
      const heir = found[1] ?? null;
      const reason = heir === null ? null : await noteOf<Problem>(files, reasonName(heir));
      const host = new Host(module, files, engine, generation, heir, reason);
      if ((await files.names()).includes(SERVER_GENERATION)) host.serverGeneration = (await noteOf<number>(files, SERVER_GENERATION)) ?? 1;
      return host;
    } catch (error) {
      await engine.close();
      throw error;
    }
  }

  listen(listener: (event: HostEvent) => void): () => void {
    this.listeners.add(listener);
    return () => void this.listeners.delete(listener);
  }

  private tell(event: HostEvent): void {
    for (const listener of this.listeners) listener(event);
  }

  /** One after the other, over files that are open. */
  private alone<T>(work: () => Promise<T>): Promise<T> {
    const result = this.queue.then(async () => {
      if (this.isClosed) throw new Closed('the database was closed');
      if (this.isBroken) await this.openAgain();
      return work();
    });
    this.queue = result.catch(() => {});
    return result;
  }

  private shot(): Snapshot {
    const { last } = this.engine.standing();
    return { epoch: this.epoch, version: this.version, last, dump: this.engine.dump(), sync: this.state, storage: this.files.kind };
  }

  snapshot(): Promise<Snapshot> {
    return this.alone(async () => this.shot());
  }

  standing(): Standing {
    return this.engine.standing();
  }

  memory(): number {
    return this.engine.memory;
  }

  // ---- transactions

  /** Commits transactions that were written at this version of the objects, one after the other, up to the first that is refused. */
  commit(epoch: string, version: number, list: readonly Commit[], by: string): Promise<Answers> {
    return this.alone(async () => {
      const isCurrent = epoch === this.epoch && version === this.version;
      const last = this.engine.standing().last;
      const { done, places, error } = this.committed(list, isCurrent);
      const isMine = error === null || error instanceof Refused || error instanceof BadRequest;
      let answers: readonly Committed[] = done;
      try {
        if (!isMine) throw error;
        if (places.length > 0) {
          const puts = this.putsOf(places.join(''));
          await this.engine.settled(null, `${last + 1} ${places.length} ${by}`);
          this.toldPuts(puts, by, places.length);
          this.loop?.committed();
        }
      } catch (why) {
        answers = await this.reopened(why, last, list.length);
      }
      return { answers, epoch: this.epoch, version: this.version };
    });
  }

  private committed(list: readonly Commit[], isCurrent: boolean): { done: Committed[]; places: string[]; error: unknown } {
    const done: Committed[] = [];
    const places: string[] = [];
    let error: unknown = null;
    for (const { ms, edits, isBlind } of list) {
      if (error !== null || (!isCurrent && !isBlind)) break;
      try {
        const reply = this.engine.reply('L', `{"ms":${Math.max(0, Math.trunc(ms))},"edits":[${edits.join(',')}]}`);
        if (reply.status !== Status.Done) throw this.refusal(reply, edits);
        done.push({ number: new DataView(reply.bytes.buffer, reply.bytes.byteOffset).getUint32(0, true) });
        places.push(textOf(this.engine.ask('C')));
      } catch (why) {
        done.push({ error: formOfError(why) });
        error = why;
      }
    }
    while (done.length < list.length) done.push('stale');
    return { done, places, error };
  }

  /** Why a transaction is refused, with the edit that doesn't act. */
  private refusal(reply: Reply, edits: readonly string[]): RealmError {
    const refused = refusalOf(reply);
    const [place, code] = refused.details;
    return refused.reason === 'Break' ? new BrokenEdit(place, code, edits[place]!) : refused;
  }

  /** Opens the files again after a failure, tells all objects anew, and what became of the transactions behind number `last`. */
  private async reopened(why: unknown, last: number, count: number): Promise<Committed[]> {
    this.isBroken = true;
    await this.openAgain();
    const stands = this.engine.standing().last - last;
    const error = formOfError(storageError(why));
    return Array.from({ length: count }, (_, place) => (place < stands ? { number: last + place + 1 } : { error }));
  }

  /** Where that fails too, it is tried again at the next call: what the disk has is seen then. */
  private async openAgain(): Promise<void> {
    await this.engine.close().catch(() => {});
    try {
      this.use(await Engine.open(this.module, await this.files.open(nameOf(this.generation))));
    } catch (error) {
      throw storageError(error);
    }
    this.isBroken = false;
    this.version += 1;
    this.tell({ event: 'snapshot', ...this.shot() });
  }

  private use(engine: Engine): void {
    this.engine = engine;
    this.talk = new Talk(engine);
  }

  /**
   * The numbers of the transactions that were handed under this name to another host, which then was killed: none where they don't stand. They are noted
   * before they are written, so what was noted later by the same numbers came in their place.
   */
  outcome(by: string): Promise<number[]> {
    return this.alone(async () => {
      const notes = this.engine.noted().map((it) => {
        const [first, count, whose] = it.split(' ');
        return { first: Number(first), end: Number(first) + Number(count), whose };
      });
      const at = notes.findIndex(({ whose }) => whose === by);
      if (at < 0) return [];
      const { first, end } = notes[at]!;
      const stands = this.engine.standing().last >= end - 1 && notes.slice(at + 1).every((it) => it.first >= end);
      return stands ? Array.from({ length: end - first }, (_, place) => first + place) : [];
    });
  }

  /** The objects at these places, as they are now; null where a table or a column is new. */
  private putsOf(places: string): Put[] | null {
    const found = new Map<string, [string, string]>();
    for (const line of places.split('\n')) {
      if (line === '') continue;
      const place = parseLine(line) as { table: string; key?: unknown };
      if (place.key === undefined) return null;
      const key = textOfKey(place.key);
      found.set(`${place.table}\n${key}`, [place.table, key]);
    }
    return [...found.values()].map(([table, key]): Put => {
      const reply = this.engine.reply('O', `{"table":${JSON.stringify(table)},"key":${key}}`);
      return [table, key, reply.status === Status.Absent ? null : textOf(expectDone(reply))];
    });
  }

  private toldPuts(puts: Put[] | null, by = '', count = 0): void {
    if (puts && puts.length === 0 && count === 0) return;
    this.version += 1;
    const { last } = this.engine.standing();
    if (puts) this.tell({ event: 'delta', epoch: this.epoch, version: this.version, last, puts, by, count });
    else this.tell({ event: 'snapshot', ...this.shot() });
  }

  // ---- messages

  /** Takes a message: of the server, or, in a test, of anybody. Answers whether it says that nothing is behind the cursor. */
  take(message: Uint8Array): Promise<boolean> {
    return this.alone(async () => {
      let taken;
      try {
        const watched = new LostEdits(this.engine, message);
        taken = this.talk.take(message);
        // A Download that is refused at an entry has been taken up to it.
        const puts = this.putsOf(textOf(this.engine.ask('C')));
        const lost = watched.found();
        await this.engine.settled(null);
        this.toldPuts(puts);
        if (lost.length > 0) this.tell({ event: 'lost', lost });
      } catch (why) {
        if (!(why instanceof BadRequest)) await this.reopened(why, 0, 0);
        throw why;
      }
      if (taken.refused) throw this.explained(taken.refused, message);
      return taken.isEnd;
    });
  }

  /** A refusal for schemas that differ says which definition it is. */
  private explained(refused: Refused, message: Uint8Array): Refused {
    const [version, number] = refused.details;
    if (refused.reason === 'Mismatch') refused.conflict = conflictIn(this.engine, message, version, number);
    return refused;
  }

  next(): Promise<Uint8Array> {
    return this.alone(async () => this.talk.next());
  }

  // ---- sync

  startSync(options: SyncOptions): void {
    this.loop?.stop();
    const transport = inTurn(options.transport);
    transport.generation = this.serverGeneration;
    this.syncOptions = { ...options, transport };
    const whole: LoopOptions = { pollEvery: transport.watch ? 300_000 : 10_000, ...DEFAULTS, ...options, transport };
    const node = {
      next: () => this.next(),
      take: (message: Uint8Array) => this.take(message),
      upgrade: async () => void (await this.alone(() => this.engine.line('{"upgrade":2}'))),
      unsent: () => this.engine.standing().unsent,
      progress: () => this.talk.progress(),
    };
    this.loop = new SyncLoop(node, whole, (state) => this.setState(state), (problem) => this.onProblem(problem));
    // A takeover that was cut off goes on, but at another server, which this one may not be any more.
    if (this.heir !== null && this.reason && this.reason.kind !== 'otherServer') void this.recover(this.reason).catch(() => {});
  }

  stopSync(): void {
    this.loop?.stop();
    this.loop = null;
    this.setState({ status: 'off' });
  }

  private setState(state: SyncState): void {
    if (state.status === 'upToDate') this.hasRecovered = false;
    this.state = state;
    this.tell({ event: 'sync', state });
  }

  poke(): void {
    this.loop?.poke();
  }

  synced(): Promise<void> {
    return this.loop ? this.loop.synced() : Promise.reject(new RealmError('this database has no sync'));
  }

  // ---- tokens

  /** A token of a tab's source. */
  askToken(wasRefused: boolean): Promise<string> {
    return new Promise((done, fail) => {
      const late = setTimeout(() => fail(new RealmError('no page handed a token over')), TOKEN_TIME);
      this.waitingForToken.push((token) => {
        clearTimeout(late);
        if (token === null) fail(new RealmError('no token could be had'));
        else done(token);
      });
      this.tell({ event: 'token', wasRefused });
    });
  }

  /** Null where the tab's source failed. */
  giveToken(token: string | null): void {
    for (const given of this.waitingForToken.splice(0)) given(token);
  }

  /** A token in place of one that was refused, or that ends soon. */
  renewToken(token: string): void {
    this.syncOptions?.transport.renew?.(token);
    this.loop?.resume();
  }

  // ---- recovery

  private async onProblem(problem: Problem): Promise<boolean> {
    if (problem.generation && problem.generation !== this.serverGeneration && this.engine.standing().ident === 0) {
      await this.agreeOn(problem.generation); // a new client begins in the generation that the history has
      return true;
    }
    const isAsked = this.syncOptions?.onProblem === 'recover' ? problem.isRecoverable : isTakenOverByItself(problem);
    if (!isAsked || this.syncOptions?.onProblem === 'ask' || this.hasRecovered) return false;
    for (let pause = 500; !this.isClosed && this.loop; pause = Math.min(60_000, pause * 2)) {
      try {
        return await this.recover(problem);
      } catch (error) {
        if (FINAL.some((it) => error instanceof it)) return false;
        await wait(pause);
      }
    }
    return false;
  }

  private async agreeOn(generation: number): Promise<void> {
    await keepNote(this.files, SERVER_GENERATION, generation);
    this.serverGeneration = generation;
    if (this.syncOptions) this.syncOptions.transport.generation = generation;
  }

  /** A new client's message, which waits no longer once the database is closed. */
  private exchange(message: Uint8Array): Promise<Uint8Array> {
    if (!this.syncOptions || this.isClosed) throw new RealmError('this database has no sync');
    const late = new AbortController();
    this.asking = late;
    const timer = setTimeout(() => late.abort(), this.syncOptions.timeout ?? DEFAULTS.timeout);
    const ended = new Promise<never>((_, fail) => { late.signal.onabort = () => fail(new RealmError('no answer came')); });
    return Promise.race([this.syncOptions.transport.exchange(message, late.signal), ended]).finally(() => clearTimeout(timer));
  }

  /** A new client takes this one's place, and saves what this one has unsent. Until it has all, this one goes on; if it is cut off, it is
   * begun again with the same new client. */
  recover(problem: Problem): Promise<boolean> {
    this.recovering ??= this.takeOver(problem).finally(() => { this.recovering = null; });
    return this.recovering;
  }

  private async takeOver(problem: Problem): Promise<boolean> {
    const { ident, unsent } = this.engine.standing();
    // The core hands over the unsent changes of a client with an ident alone: a new one would begin without them.
    if (ident === 0 && unsent > 0) throw new NeedsAttention({ ...problem, text: `${problem.text}; this client has no ident yet`, isRecoverable: false });
    const before = this.state;
    this.setState({ status: 'recovering', problem });
    const { transport } = this.syncOptions ?? {};
    for (;;) {
      const heir = await this.openHeir(problem);
      try {
        if (transport && problem.generation) transport.generation = problem.generation;
        if (await this.putInPlace(heir, problem)) return true;
        await heir.close();
        await this.discardHeir();
      } catch (error) {
        if (this.engine !== heir) await heir.close();
        if (error instanceof Refused) await this.discardHeir();
        if (transport) transport.generation = this.serverGeneration;
        this.setState(before);
        throw error;
      }
    }
  }

  /** False where the new client has to be begun anew. */
  private async putInPlace(heir: Engine, problem: Problem): Promise<boolean> {
    const takeover = new Takeover(heir, (message) => this.exchange(message), problem);
    if (!(await takeover.join(this.engine.standing()))) return false;
    const recovery = await this.alone(async () => {
      const done = await takeover.inherit(this.engine);
      if (problem.generation) await this.agreeOn(problem.generation);
      await this.replaced(heir, problem);
      return done;
    });
    this.hasRecovered = true;
    this.tell({ event: 'recovered', recovery });
    this.loop?.resume();
    return true;
  }

  /** The new client that had begun to take over, or another one: one of another server is never gone on with. */
  private async openHeir(problem: Problem): Promise<Engine> {
    if (problem.kind === 'otherServer' || this.reason?.kind === 'otherServer') await this.discardHeir();
    if (this.heir === null) {
      const { kind, text, generation } = problem;
      this.reason = { kind, text, isRecoverable: true, ...(generation && { generation }) };
      await keepNote(this.files, reasonName(this.generation + 1), this.reason);
      this.heir = this.generation + 1;
    }
    return Engine.open(this.module, await this.files.open(nameOf(this.heir)));
  }

  /** What a new client saved before it took the place is in no history: it may be begun anew. */
  private async discardHeir(): Promise<void> {
    const { heir } = this;
    this.heir = this.reason = null;
    if (heir === null) return;
    await this.files.remove(nameOf(heir));
    await this.files.remove(reasonName(heir));
  }

  /** The new client is the database's from now on. Where the old one may have what no history has, its file is kept beside. */
  private async replaced(heir: Engine, problem: Problem): Promise<void> {
    const before = this.generation;
    if (problem.kind === 'otherServer' || problem.kind === 'damaged') {
      const bytes = await this.engine.bytes();
      await inFile(this.files, `kept-${before}`, (kept) => kept.apply([{ place: 0, bytes }, 'sync']));
    }
    await this.engine.close();
    this.use(heir);
    this.generation = this.heir!;
    this.heir = this.reason = null;
    await this.files.remove(nameOf(before));
    await this.files.remove(reasonName(this.generation));
    this.version += 1;
    this.tell({ event: 'snapshot', ...this.shot() });
  }

  // ---- the file

  /** The bytes of the client's file, as they are without encryption: for a backup, or a report of a fault. */
  file(): Promise<Uint8Array> {
    return this.alone(async () => this.engine.bytes());
  }

  async close(): Promise<void> {
    this.isClosed = true;
    this.loop?.stop();
    this.loop = null;
    this.giveToken(null);
    this.asking?.abort();
    await this.recovering?.catch(() => {});
    await this.queue;
    await this.engine.close();
    await this.files.close();
  }
}
