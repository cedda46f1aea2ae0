/**
 * The same for Node: a database in a folder.
 *
 *     const db = await openDatabase({ folder: 'data', schema, sync: { url: 'https://example.org/notes', token } });
 */
import * as fs from 'node:fs';
import { Database, type Realm } from './database.js';
import { Door, expectDone, standingOf, type Standing } from './door.js';
import { Engine } from './engine.js';
import { Host } from './host.js';
import { LocalLink } from './link.js';
import type { Schema, Tables } from './schema.js';
import { MemoryFiles, type Durability, type Files, type OpenFile } from './storage.js';
import { NodeFiles } from './storage_node.js';
import { SealedFiles, type EncryptionKey } from './storage_sealed.js';
import { optionsOf, type SyncOver, type SyncWith } from './sync_options.js';

export * from './index.js';
export { NodeFiles } from './storage_node.js';

export interface NodeOptions<T extends Tables> {
  /** Where its files are; without one it is in memory. */
  folder?: string;
  schema: Schema<T>;
  sync?: SyncWith | SyncOver;
  durability?: Durability;
  /** With a key the files are encrypted: docs/STORAGE.md says what that protects. */
  encryptionKey?: EncryptionKey;
  /** Files of one's own, in place of a folder. */
  files?: Files;
}

let module: WebAssembly.Module | null = null;
/** The merge core's module, compiled once. */
export function loadModule(): WebAssembly.Module {
  module ??= new WebAssembly.Module(fs.readFileSync(new URL('./realm_sync.wasm', import.meta.url)));
  return module;
}

export async function openDatabase<T extends Tables>(options: NodeOptions<T>): Promise<Realm<T>> {
  const { folder, schema, sync, durability, encryptionKey, files } = options;
  const plain = files ?? (folder === undefined ? new MemoryFiles() : await NodeFiles.at(folder, durability));
  const db = await opened(schema, plain, encryptionKey).catch(async (error: unknown) => {
    await plain.close();
    throw error;
  });
  if (sync) await db.startSync(sync);
  return db;
}

/** Takes a database in that folder off this machine, with what was never sent. `Busy` where it is open. */
export const deleteDatabase = (folder: string): Promise<void> => NodeFiles.erase(folder);

async function opened<T extends Tables>(schema: Schema<T>, plain: Files, key: EncryptionKey | undefined): Promise<Realm<T>> {
  const files = key ? await SealedFiles.over(plain, key) : plain;
  return Database.open(schema, new LocalLink(await Host.start(loadModule(), files), optionsOf));
}

/** A server's node over a file: it answers each message with one. One at a time; who sends may send is its caller's part. */
export class ServerNode {
  private queue: Promise<unknown> = Promise.resolve();
  private constructor(private readonly engine: Engine) {}

  static async open(file: OpenFile): Promise<ServerNode> {
    return new ServerNode(await Engine.open(loadModule(), file, 's'));
  }

  take(message: Uint8Array): Promise<Uint8Array> {
    const reply = this.queue.then(async () => this.engine.settled(this.engine.ask('T', message)));
    this.queue = reply.catch(() => {});
    return reply;
  }

  get length(): number {
    return this.engine.standing().cursor;
  }

  standing(): Standing {
    return this.engine.standing();
  }

  dump(): string {
    return this.engine.dump();
  }

  close(): Promise<void> {
    return this.engine.close();
  }
}
export { Door, expectDone, standingOf };
