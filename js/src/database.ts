// A database as an application has it in one tab: its objects to read at once, transactions, and the state of sync.

import { call, kept } from './call.js';
import { Closed, NeedsAttention, SchemaConflict, errorOfForm } from './errors.js';
import type { Answers, Commit, Committed, HostEvent, Snapshot } from './host.js';
import { HostGone, type Call, type Link } from './link.js';
import type { LostForm } from './lost.js';
import { Mirror, type Row, type RowChange } from './mirror.js';
import { problem as problemFor } from './problems.js';
import { Feed, Table, type Stop } from './query.js';
import type { Recovery } from './recovery.js';
import type { Key, Schema, Tables } from './schema.js';
import type { SyncState } from './sync.js';
import { formOf, type SyncOver, type SyncWith } from './sync_options.js';
import { Transaction, type Writer } from './transaction.js';
import type { TokenSource } from './transports.js';
import { readElement } from './values.js';

/** A database, with a property for each table. */
export type Realm<T extends Tables> = Database<T> & { readonly [N in keyof T]: Table<T[N]> };

/**
 * An edit of this device that isn't seen any more, since a change of another device that it hadn't seen came. It is told of edits that
 * this device hadn't got back from the history: where its own change came into the history first, and the other one's then won, the device
 * that lost isn't told. It may also be that somebody who had seen this edit wrote over it later, before this device knew that it was in the
 * history.
 */
export interface LostEdit {
  readonly table: string;
  readonly key: Key;
  /** Null where the whole object is gone. */
  readonly column: string | null;
  readonly why: 'overwritten' | 'erased';
  /** When this device wrote it. */
  readonly at: Date;
  /** What it had written: a value, or an element of a collection. */
  readonly mine: unknown;
  /** The object as this device had it before, and as it is now. */
  readonly before: Row;
  readonly object: Row | undefined;
}

interface Job {
  run(writer: any): unknown;
  done(value: any): void;
  fail(error: unknown): void;
}
interface Planned {
  readonly job: Job;
  readonly transaction: Transaction;
  readonly value: unknown;
  readonly ms: number;
}

export class Database<T extends Tables> {
  private readonly mirror: Mirror;
  private readonly feed = new Feed();
  private readonly tables = new Map<string, Table<any>>();
  private epoch = '';
  private version = 0;
  private last = 0;
  private greatest = 0;
  private readonly id = crypto.randomUUID();
  private handed = 0;
  /** Whose the last transactions of the client are, by their numbers, as far as the host told. */
  private readonly owners = new Map<number, string>();
  private readonly jobs: Job[] = [];
  private isDraining = false;
  private isClosed = false;
  private arrivals: (() => void)[] = [];
  private readonly syncListeners = new Set<(state: SyncState) => void>();
  private readonly recoveryListeners = new Set<(recovery: Recovery) => void>();
  private readonly lossListeners = new Set<(lost: readonly LostEdit[]) => void>();
  private readonly changeListeners = new Set<(changes: readonly RowChange[]) => void>();
  private readonly stopListening: Stop;
  /** What the last snapshot said against the declared schema. */
  private conflict: SchemaConflict | null = null;
  private state: SyncState = { status: 'off' };
  private kind = '';

  private constructor(readonly schema: Schema<T>, private readonly link: Link, private token: TokenSource | undefined) {
    this.mirror = new Mirror(schema);
    for (const [name, rows] of this.mirror.tables) {
      if (name in this) throw new TypeError(`a table can't be named ${name}: the database has a member of that name`);
      const table = new Table<any>(rows, this.feed);
      this.tables.set(name, table);
      Object.defineProperty(this, name, { value: table, enumerable: true });
    }
    this.stopListening = link.listen((event) => this.take(event));
  }

  static async open<T extends Tables>(schema: Schema<T>, link: Link, token?: TokenSource): Promise<Realm<T>> {
    const database = new Database(schema, link, token);
    try {
      await database.refresh();
      if (database.conflict) throw database.conflict;
      await database.applySchema();
    } catch (error) {
      database.stopListening();
      await link.close();
      throw error;
    }
    return database as Realm<T>;
  }

  /** A call that may be made twice: where the place that has the files ended before it answered, the next one is asked. */
  private async ask(method: Call, ...words: unknown[]): Promise<any> {
    for (;;) {
      try {
        return await this.link.call(method, ...words);
      } catch (error) {
        if (!(error instanceof HostGone)) throw error;
      }
    }
  }

  private async refresh(): Promise<void> {
    this.load(await this.ask('snapshot'));
  }

  /** Adds what the schema declares and the data lack. Other devices that add the same agree with it. */
  private async applySchema(): Promise<void> {
    while (this.mirror.lacking.length > 0) {
      const edits = this.mirror.lackingEdits();
      const list = [{ ms: Date.now(), edits, isBlind: false }];
      const [answer] = await this.handOver(list).catch((error: unknown) => {
        if (!(error instanceof HostGone)) throw error;
        return this.refresh().then(() => ['stale' as const]);
      });
      if (answer && answer !== 'stale' && 'error' in answer) throw errorOfForm(answer.error);
      if (this.conflict) throw this.conflict;
    }
  }

  // ---- what the host tells

  private take(event: HostEvent): void {
    switch (event.event) {
      case 'sync':
        this.state = event.state;
        for (const listener of this.syncListeners) call(listener, event.state);
        return;
      case 'recovered':
        for (const listener of this.recoveryListeners) call(listener, event.recovery);
        return;
      case 'lost': return this.tellLost(event.lost);
      case 'token':
        if (typeof this.token === 'function') void this.handToken(this.token, event.wasRefused);
        return;
      case 'snapshot': return this.load(event);
      case 'delta':
        if (event.epoch !== this.epoch || event.version <= this.version) return;
        if (event.version !== this.version + 1) return void this.refresh().catch(() => {}); // (closed meanwhile)
        this.version = event.version;
        this.last = event.last;
        for (let number = event.last - event.count + 1; number <= event.last; number++) this.owners.set(number, event.by);
        for (const number of this.owners.keys()) if (number < event.last - 1000) this.owners.delete(number);
        this.changed(this.mirror.put(event.puts));
    }
  }

  private tellLost(forms: readonly LostForm[]): void {
    const lost = forms.flatMap((it) => this.lostEdit(it));
    if (lost.length > 0) for (const listener of this.lossListeners) call(listener, lost);
  }

  /** None where the table or the column isn't one of the declared schema. */
  private lostEdit({ table, key, column, why, ms, mine, before }: LostForm): LostEdit[] {
    const rows = this.mirror.tables.get(table);
    const form = column === null ? null : rows?.form.column.get(column);
    if (!rows || form === undefined) return [];
    const name = rows.keyOf(key);
    const value = form && readElement(form, mine);
    return [{ table, key: name, column, why, at: new Date(ms), mine: value, before: rows.row(name, before), object: rows.rows.get(name) }];
  }

  private async handToken(source: (wasRefused: boolean) => string | Promise<string>, wasRefused: boolean): Promise<void> {
    const token = await (async () => source(wasRefused))().catch(() => null); // one that fails is asked again when sync is tried again
    await this.link.call('giveToken', token).catch(() => {});
  }

  private load(snapshot: Snapshot): void {
    this.epoch = snapshot.epoch;
    this.version = snapshot.version;
    if (snapshot.last < this.last) this.owners.clear(); // a new client took over
    this.last = snapshot.last;
    this.kind = snapshot.storage;
    this.state = snapshot.sync;
    this.conflict = null;
    let changes: RowChange[] = [];
    try {
      changes = this.mirror.load(snapshot.dump);
    } catch (error) {
      if (!(error instanceof SchemaConflict)) throw error;
      this.conflict = error;
    }
    this.changed(changes);
    for (const listener of this.syncListeners) call(listener, this.state);
  }

  private changed(changes: RowChange[]): void {
    this.feed.tell(changes);
    if (changes.length > 0) for (const listener of this.changeListeners) call(listener, changes);
    const arrivals = this.arrivals;
    this.arrivals = [];
    for (const arrive of arrivals) arrive();
  }

  /** Waits until this tab has that version of the objects. Another host's snapshot has what the one before had on the disk. */
  private async reach(epoch: string, version: number): Promise<void> {
    if (this.epoch !== epoch) return this.refresh();
    while (!this.isClosed && this.epoch === epoch && this.version < version) {
      const arrived = new Promise<boolean>((done) => this.arrivals.push(() => done(true)));
      const isLate = new Promise<boolean>((done) => setTimeout(() => done(false), 1000));
      if (!(await Promise.race([arrived, isLate]))) await this.refresh();
    }
  }

  // ---- transactions

  /**
   * Does the function's edits as one transaction: all of them stand, or none. It resolves with what the function returns, once the
   * transaction is on the disk. The function is run again where another tab or a message came between, so it only reads and edits.
   */
  write<R>(run: (writer: Writer<T>) => R): Promise<R> {
    if (this.isClosed) return Promise.reject(new Closed('the database was closed'));
    if (this.conflict) return Promise.reject(this.conflict);
    return new Promise<R>((done, fail) => {
      this.jobs.push({ run, done, fail });
      if (!this.isDraining) void this.drain();
    });
  }

  private async drain(): Promise<void> {
    this.isDraining = true;
    await Promise.resolve(); // all writes of one turn of the event loop go together
    while (this.jobs.length > 0) {
      const batch = this.jobs.splice(0, 256);
      try {
        await this.commit(batch);
      } catch (error) {
        for (const job of batch) job.fail(error);
      }
    }
    this.isDraining = false;
  }

  private plan(batch: Job[]): Planned[] {
    const planned: Planned[] = [];
    let before: Transaction | null = null;
    for (const job of batch) {
      const transaction: Transaction = new Transaction(this.mirror, before);
      try {
        const value = job.run(transaction.writer);
        transaction.close();
        if (value instanceof Promise) {
          value.catch(() => {}); // its verbs throw from now on
          throw new TypeError('the function of write() is synchronous: await before it, and not in it');
        }
        this.greatest = Math.max(this.greatest, Date.now()); // a clock that is set back loses no own conflict
        planned.push({ job, transaction, value, ms: this.greatest });
        if (transaction.edits.length > 0) before = transaction;
      } catch (error) {
        transaction.close();
        job.fail(error);
      }
    }
    return planned;
  }

  private async commit(batch: Job[]): Promise<void> {
    let jobs = batch;
    while (jobs.length > 0) {
      const planned = this.plan(jobs);
      const some = planned.filter((it) => it.transaction.edits.length > 0);
      if (some.length === 0) {
        for (const { job, value } of planned) job.done(value);
        return;
      }
      const answers = await this.hand(some);
      jobs = [];
      const byPlan = new Map(some.map((it, place) => [it, answers[place]!]));
      for (const it of planned) {
        const answer = byPlan.get(it);
        if (answer === undefined || (answer !== 'stale' && 'number' in answer)) it.job.done(it.value);
        else if (answer === 'stale') jobs.push(it.job);
        else it.job.fail(errorOfForm(answer.error));
      }
    }
  }

  /** Hands transactions to the host. Where it ended, the next one says whether they stand. */
  private async hand(planned: readonly Planned[]): Promise<readonly Committed[]> {
    const list = planned.map(({ transaction, ms }) => ({ ms, edits: transaction.edits, isBlind: !transaction.hasRead }));
    const by = `${this.id}.${++this.handed}`;
    try {
      return await this.handOver(list, by);
    } catch (error) {
      if (!(error instanceof HostGone)) throw error;
    }
    let numbers = [...this.owners].filter(([, owner]) => owner === by).map(([number]) => number);
    // The last transactions may stand without having been told: the next host has it noted whose they are.
    if (numbers.length === 0) numbers = (await this.ask('outcome', by)) as number[];
    await this.refresh();
    return planned.map((_, place) => (place < numbers.length ? { number: numbers[place]! } : 'stale'));
  }

  /** `by` names these transactions: a host that is killed may leave it to the next one to say that they stand. */
  private async handOver(list: readonly Commit[], by = `${this.id}.${++this.handed}`): Promise<readonly Committed[]> {
    const { answers, epoch, version } = (await this.link.call('commit', this.epoch, this.version, list, by)) as Answers;
    await this.reach(epoch, version);
    return answers;
  }

  /** A table by its name, for code that has it as a text. */
  table<N extends keyof T & string>(name: N): Table<T[N]> {
    return this.tables.get(name) as Table<T[N]>;
  }

  /** Calls back with the objects that each transaction or message changed. */
  onChange(callback: (changes: readonly RowChange[]) => void): Stop {
    return kept(this.changeListeners, callback);
  }

  // ---- sync

  /** What a screen shows of sync. */
  get syncState(): SyncState {
    return this.state;
  }

  /** Calls back now and with each later state. */
  observeSync(callback: (state: SyncState) => void): Stop {
    callback(this.state);
    return kept(this.syncListeners, callback);
  }

  /** Resolves once all that was committed before is in the history, and all that the history had is here; waits while offline. Rejects where
   * sync needs attention (`NeedsAttention`, `SchemaConflict`). */
  synced(): Promise<void> {
    return this.ask('synced');
  }

  /** Syncs with this server from now on. A transport of one's own is for databases in this very thread: in Node, and in memory. */
  startSync(options: SyncWith | SyncOver): Promise<void> {
    if ('transport' in options) return this.ask('startSync', options);
    this.token = options.token;
    return this.ask('startSync', formOf(options));
  }

  /** A token in place of one that ends soon, or that the server refused. Of several tabs each has its own: there a function as the token is better. */
  renewToken(token: string): Promise<void> {
    return this.ask('renewToken', token);
  }

  stopSync(): Promise<void> {
    return this.ask('stopSync');
  }

  /** Lets a new client take this one's place, with what is unsent: where sync needs attention, and the problem is recoverable. Else it rejects
   * with `NeedsAttention`. */
  async recover(): Promise<boolean> {
    const problem = this.state.status === 'attention' ? this.state.problem : problemFor('damaged', 'asked for', true);
    if (!problem.isRecoverable) throw new NeedsAttention(problem);
    return this.ask('recover', problem);
  }

  /** Calls back with what a new client saved of what the old one had unsent, and what was lost. */
  onRecovered(callback: (recovery: Recovery) => void): Stop {
    return kept(this.recoveryListeners, callback);
  }

  /** Calls back with edits of this device that aren't seen any more after changes of other devices came. */
  onLost(callback: (lost: readonly LostEdit[]) => void): Stop {
    return kept(this.lossListeners, callback);
  }

  /** Where the client stands, and the memory of the merge core in bytes. */
  stats(): Promise<{ ident: number; cursor: number; last: number; unsent: number; memory: number }> {
    return this.ask('stats');
  }

  /** The client's file as bytes. */
  exportFile(): Promise<Uint8Array> {
    return this.ask('file');
  }

  /** Where the files are: `opfs`, `indexeddb`, `folder` or `memory`. */
  get storage(): string {
    return this.kind;
  }

  /** Whether this tab is the one that has the files. */
  get isHost(): boolean {
    return this.link.isHost;
  }

  async close(): Promise<void> {
    if (this.isClosed) return;
    while (this.isDraining) await new Promise((done) => setTimeout(done, 1));
    this.isClosed = true;
    this.stopListening();
    await this.link.close();
  }
}
