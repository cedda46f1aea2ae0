// The worker of the tab that has the files: a host, and the port and channels over which tabs ask it.

import { formOfError } from './errors.js';
import { Host, type HostEvent } from './host.js';
import { replyTo, type Question } from './link.js';
import { IdbFiles } from './storage_idb.js';
import { OpfsFiles } from './storage_opfs.js';
import { MemoryFiles, type Durability, type Files } from './storage.js';
import { SealedFiles, type EncryptionKey } from './storage_sealed.js';
import { optionsOf, type SyncForm } from './sync_options.js';

export interface WorkerStart {
  readonly name: string;
  readonly module: WebAssembly.Module;
  readonly storage: 'opfs' | 'indexeddb' | 'memory' | 'auto';
  readonly durability: Durability;
  readonly key: EncryptionKey | null;
  readonly sync: SyncForm | null;
}
const scope = self as unknown as DedicatedWorkerGlobalScope;

async function filesOf(form: WorkerStart): Promise<Files> {
  const plain = await plainFilesOf(form);
  return form.key ? SealedFiles.over(plain, form.key) : plain;
}

async function plainFilesOf({ name, storage, durability }: WorkerStart): Promise<Files> {
  if (storage === 'memory') return new MemoryFiles();
  if (storage === 'opfs' || (storage === 'auto' && (await OpfsFiles.isHere()))) return OpfsFiles.at(name, durability);
  return IdbFiles.at(name, durability);
}

/** Held as long as this worker lives: a tab's lock goes with its page, and its worker may outlive that by a moment. IndexedDB has no lock. */
function lockFiles(name: string): Promise<void> {
  return new Promise((held, refused) => {
    navigator.locks.request(`realm-sync:${name}:files`, () => {
      held();
      return new Promise(() => {});
    }).catch(refused);
  });
}

async function start(form: WorkerStart): Promise<void> {
  await lockFiles(form.name);
  const host = await Host.start(form.module, await filesOf(form));
  const all = new BroadcastChannel(`realm-sync:${form.name}`);
  const asked = new BroadcastChannel(`realm-sync:${form.name}:host`);
  const { epoch } = await host.snapshot();
  host.listen((event: HostEvent) => {
    scope.postMessage({ event });
    all.postMessage({ event });
  });
  scope.onmessage = async ({ data }: MessageEvent) => {
    if (data.close) {
      asked.close();
      await host.close().catch(() => {}); // the tab ends this worker, and with it what is open
      return scope.postMessage({ closed: true });
    }
    scope.postMessage({ reply: await replyTo(host, data.ask as Question, optionsOf) });
  };
  asked.onmessage = async ({ data }: MessageEvent) => {
    const { from, ask, hello } = data as { from: string; ask?: Question; hello?: true };
    const back = new BroadcastChannel(`realm-sync:${form.name}:tab:${from}`);
    if (hello) back.postMessage({ host: epoch });
    if (ask) back.postMessage({ reply: await replyTo(host, ask, optionsOf), epoch });
    back.close();
  };
  if (form.sync) host.startSync(optionsOf(form.sync, host));
  scope.addEventListener('online', () => host.poke());
  scope.postMessage({ ready: epoch });
  all.postMessage({ host: epoch });
}

scope.onmessage = ({ data }: MessageEvent) => {
  start(data as WorkerStart).catch((error) => scope.postMessage({ failed: formOfError(error) }));
};
