/**
 * An offline-first object database for browsers.
 *
 *     const schema = defineSchema({ notes: { id: key.uuid(), text: text(), read: counter() } });
 *     const db = await openDatabase({ name: 'notes', schema, sync: { url: 'wss://example.org/notes' } });
 *     const id = await db.write((tx) => tx.notes.create({ text: 'buy milk' }));
 *     db.notes.where({ text: 'buy milk' }).observe((notes) => draw(notes));
 */
import { Database, type Realm } from './database.js';
import { Busy, RealmError } from './errors.js';
import { Host } from './host.js';
import { LocalLink } from './link.js';
import type { Schema, Tables } from './schema.js';
import { MemoryFiles, type Durability, type Files } from './storage.js';
import { IdbFiles } from './storage_idb.js';
import { OpfsFiles } from './storage_opfs.js';
import { TabLink } from './tabs.js';
import type { EncryptionKey } from './storage_sealed.js';
import { formOf, optionsOf, type SyncWith } from './sync_options.js';

export * from './errors.js';
export * from './schema.js';
export { Database, type LostEdit, type Realm } from './database.js';
export { Query, Table, type Changes, type Stop } from './query.js';
export { Host, type SyncOptions } from './host.js';
export type { Conflict, Problem, ProblemKind } from './problems.js';
export type { Dropped, Recovery } from './recovery.js';
export { LocalLink } from './link.js';
export { optionsOf } from './sync_options.js';
export { FileImage, MemoryFiles, type Durability, type Files, type OpenFile } from './storage.js';
export { SealedFiles, type EncryptionKey } from './storage_sealed.js';
export { HttpTransport, WebSocketTransport, type TokenSource } from './transports.js';
export type { SyncState, Transport } from './sync.js';
export type { SyncOver, SyncWith } from './sync_options.js';
export { Door } from './door.js';
export { Engine } from './engine.js';
export type { TableWriter, Writer } from './transaction.js';
export type { RowChange } from './mirror.js';

export interface OpenOptions<T extends Tables> {
  /** One database of this name an origin. */
  name: string;
  schema: Schema<T>;
  sync?: SyncWith;
  /** `auto` is OPFS where the browser has it and gives it out, else IndexedDB. `memory` is this tab's own, and gone with it. */
  storage?: 'auto' | 'opfs' | 'indexeddb' | 'memory';
  durability?: Durability;
  /** Whether the browser is asked to keep the storage where the device runs short of it: true. Some browsers then ask the person. */
  persist?: boolean;
  /** With a key the files are encrypted: docs/STORAGE.md says what that protects. */
  encryptionKey?: EncryptionKey;
  /** Where the module is served, unless beside this file. */
  wasmUrl?: string | URL;
  makeWorker?: () => Worker;
}

const modules = new Map<string, Promise<WebAssembly.Module>>();
/** The merge core's module, compiled once. */
export function loadModule(url: string | URL = new URL('./realm_sync.wasm', import.meta.url)): Promise<WebAssembly.Module> {
  const at = String(url);
  let module = modules.get(at);
  if (!module) {
    modules.set(at, (module = compiled(at)));
    module.catch(() => modules.delete(at)); // it may be there at the next try
  }
  return module;
}

async function compiled(url: string): Promise<WebAssembly.Module> {
  const response = await fetch(url);
  if (!response.ok) throw new RealmError(`${url} can't be loaded (${response.status}): it is served beside index.js, or wasmUrl says where`);
  // A server that doesn't know the type of such files says another one, which the streaming compiler refuses.
  const isNamed = response.headers.get('content-type') === 'application/wasm';
  return isNamed ? WebAssembly.compileStreaming(response) : WebAssembly.compile(await response.arrayBuffer());
}

export async function openDatabase<T extends Tables>(options: OpenOptions<T>): Promise<Realm<T>> {
  const { name, schema, sync, storage = 'auto', durability = 'strict', encryptionKey: key = null } = options;
  if (!navigator.locks) throw new RealmError('a database needs a secure context: a page from https:, or from localhost');
  const module = await loadModule(options.wasmUrl);
  if (storage === 'memory') return openOver(schema, module, new MemoryFiles(), sync);
  if (options.persist ?? true) void navigator.storage?.persist?.().catch(() => false);
  // (in this form bundlers find the worker, and bundle it)
  const makeWorker = options.makeWorker ?? (() => new Worker(new URL('./worker.js', import.meta.url), { type: 'module', name: 'realm-sync' }));
  const form = sync ? formOf(sync) : null;
  return Database.open(schema, new TabLink({ name, module, storage, durability, key, sync: form }, makeWorker), sync?.token);
}

/** Takes a database of this name off this device, with what was never sent. `Busy` where a tab has it open. */
export async function deleteDatabase(name: string): Promise<void> {
  const isFree = await navigator.locks.request(`realm-sync:${name}`, { ifAvailable: true }, async (lock) => {
    if (!lock) return false;
    await navigator.locks.request(`realm-sync:${name}:files`, () => Promise.all([OpfsFiles.erase(name), IdbFiles.erase(name)]));
    return true;
  });
  if (!isFree) throw new Busy('a tab has the database open: close it first');
}

/** A database over files of one's own: for tests, and for storages that this package doesn't have. */
export async function openOver<T extends Tables>(
  schema: Schema<T>, module: WebAssembly.Module, files: Files, sync?: SyncWith,
): Promise<Realm<T>> {
  const db = await Database.open(schema, new LocalLink(await Host.start(module, files), optionsOf));
  if (sync) await db.startSync(sync);
  return db;
}
