// A client over a file: each answer is told once what it rests on is on the disk.

import { Door, Status, expectDone, gathered, numberOf, standingOf, textOf, type Reply, type Standing } from './door.js';
import { StorageFailed, WrongKey, storageError, type RealmError } from './errors.js';
import type { OpenFile } from './storage.js';
import { Tag, borneIn, headOf, type Change, type Entry, type Head } from './messages.js';
import { isSealed } from './storage_sealed.js';

/** A number as requests have it. */
export const four = (number: number): Uint8Array => {
  const bytes = new Uint8Array(4);
  new DataView(bytes.buffer).setUint32(0, number, true);
  return bytes;
};

export class Engine {
  private isFailed = false;
  private isClosed = false;

  private constructor(private readonly door: Door, private readonly file: OpenFile) {}

  /** Opens the client of a file, or a new one. Where that fails the file is closed. */
  static async open(module: WebAssembly.Module, file: OpenFile, kind: 'c' | 's' = 'c'): Promise<Engine> {
    const engine = new Engine(new Door(module), file);
    try {
      const bytes = await file.read();
      if (isSealed(bytes)) throw new WrongKey('the file is encrypted: open it with its key');
      expectDone(engine.door.turn(kind, bytes));
      await engine.settle();
      return engine;
    } catch (error) {
      await engine.close();
      throw error;
    }
  }

  /** A request, without its strokes. */
  ask(verb: string, body?: string | Uint8Array): Uint8Array {
    return expectDone(this.reply(verb, body));
  }

  reply(verb: string, body?: string | Uint8Array): Reply {
    if (this.isFailed) throw new StorageFailed('the storage failed before');
    return this.door.turn(verb, body);
  }

  /** Does what the node asked of its disk. Where that fails the engine is of no use any more: its file is opened anew. */
  settle(note?: string): void | Promise<void> {
    const strokes = gathered(this.door.strokes());
    if (strokes.length === 0) return;
    let pending: void | Promise<void>;
    try {
      pending = this.file.apply(strokes, note);
    } catch (error) {
      throw this.failed(error);
    }
    if (!pending) return this.door.done();
    return pending.then(() => this.door.done(), (error) => { throw this.failed(error); });
  }

  private failed(error: unknown): RealmError {
    this.isFailed = true;
    return storageError(error);
  }

  async settled<T>(answer: T, note?: string): Promise<T> {
    const pending = this.settle(note);
    if (pending) await pending;
    return answer;
  }

  /** A node line, for its number. */
  async line(text: string): Promise<number> {
    return this.settled(numberOf(this.ask('L', text)));
  }

  dump(): string {
    return textOf(this.ask('D'));
  }

  standing(): Standing {
    return standingOf(this.ask('I'));
  }

  /** What a message is about; null where its bytes are none. */
  head(message: Uint8Array): Head | null {
    const { status, bytes } = this.reply('H', message);
    return status === Status.Done ? headOf(bytes) : null;
  }

  /** The entries of a Download; none of any other message. */
  entriesOf(message: Uint8Array): Entry[] {
    const head = this.head(message);
    if (head?.tag !== Tag.Download) return [];
    const entries = borneIn(this.ask('P', message));
    return entries.map(({ first, second, ms, body }, place) => ({ version: head.first + place, origin: first, number: second, ms, body }));
  }

  /** The unsent changes of the client, as they were made. One without an ident tells none: the core makes no Upload of it. */
  *unsent(): IterableIterator<Change> {
    for (let after = 0; this.standing().ident !== 0; ) {
      const changes = borneIn(this.ask('P', this.ask('U', four(after))));
      if (changes.length === 0) return;
      for (const { first, ms, body } of changes) yield { number: first, ms, body };
      after = changes.at(-1)!.first;
    }
  }

  /** The notes of the last strokes. */
  noted(): readonly string[] {
    return this.file.noted?.() ?? [];
  }

  /** The bytes of the file. */
  bytes(): Uint8Array | Promise<Uint8Array> {
    return this.file.read();
  }

  get memory(): number {
    return this.door.memory;
  }

  async close(): Promise<void> {
    if (this.isClosed) return;
    this.isClosed = true;
    this.door.close();
    await this.file.close();
  }
}
