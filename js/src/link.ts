// How a tab asks the host: in the same thread, or over a port.

import type { Host, HostEvent, SyncOptions } from './host.js';
import { Closed, errorOfForm, formOfError } from './errors.js';

/** The calls of a host that a tab makes. */
export const CALLS = [
  'snapshot', 'commit', 'outcome', 'synced', 'poke', 'stopSync', 'startSync', 'recover', 'giveToken', 'renewToken', 'file', 'stats',
] as const;
export type Call = (typeof CALLS)[number];

/** The host that was asked ended before it answered. */
export class HostGone extends Closed {}

export interface Link {
  call(method: Call, ...words: unknown[]): Promise<any>;
  listen(listener: (event: HostEvent) => void): () => void;
  close(): Promise<void>;
  /** Whether this tab has the files. */
  readonly isHost: boolean;
}

/** Makes the host's options of those that a tab hands over. */
export type MakeSync = (form: any, host: Host) => SyncOptions;

/** Asks a host for a call by name. */
export async function answer(host: Host, method: Call, words: any[], makeSync: MakeSync): Promise<unknown> {
  switch (method) {
    case 'commit': return host.commit(words[0], words[1], words[2], words[3]);
    case 'outcome': return host.outcome(words[0]);
    case 'recover': return host.recover(words[0]);
    case 'startSync': return host.startSync(makeSync(words[0], host));
    case 'giveToken': return host.giveToken(words[0]);
    case 'renewToken': return host.renewToken(words[0]);
    case 'stats': return { ...host.standing(), memory: host.memory() };
    default: return host[method]();
  }
}

export class LocalLink implements Link {
  readonly isHost = true;
  constructor(readonly host: Host, private readonly makeSync: MakeSync) {}

  call(method: Call, ...words: unknown[]): Promise<any> {
    return answer(this.host, method, words, this.makeSync);
  }

  listen(listener: (event: HostEvent) => void): () => void {
    return this.host.listen(listener);
  }

  close(): Promise<void> {
    return this.host.close();
  }
}

// ---- over ports

export interface Question {
  readonly id: number;
  readonly method: Call;
  readonly words: unknown[];
}
export interface Reply {
  readonly id: number;
  readonly value?: unknown;
  readonly error?: ReturnType<typeof formOfError>;
}

/** Answers a question for whoever asked. */
export async function replyTo(host: Host, { id, method, words }: Question, makeSync: MakeSync): Promise<Reply> {
  try {
    return { id, value: await answer(host, method, words, makeSync) };
  } catch (error) {
    return { id, error: formOfError(error) };
  }
}

/** Questions that wait for their reply. */
export class Asking {
  private count = 0;
  private readonly waiting = new Map<number, { done: (value: any) => void; fail: (error: Error) => void }>();

  ask(post: (question: Question) => void, method: Call, words: unknown[]): Promise<any> {
    const id = ++this.count;
    return new Promise((done, fail) => {
      this.waiting.set(id, { done, fail });
      post({ id, method, words });
    });
  }

  take({ id, value, error }: Reply): void {
    const waiting = this.waiting.get(id);
    this.waiting.delete(id);
    if (error) waiting?.fail(errorOfForm(error));
    else waiting?.done(value);
  }

  fail(error: Error): void {
    for (const { fail } of this.waiting.values()) fail(error);
    this.waiting.clear();
  }
}
