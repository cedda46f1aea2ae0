// Sync as an application asks for it, and as it goes to the place that has the files, which may be another thread or another tab.

import type { Host, SyncOptions } from './host.js';
import type { Transport } from './sync.js';
import { transportOf, type TokenSource } from './transports.js';

/** Sync with a server at an address. */
export interface SyncWith {
  /** The history's own address: `wss://host/v1/histories/NAME`, or the same with `https:`. */
  readonly url: string;
  /** A token, or a function that hands one over; it is asked for another one once the server refused the first. */
  readonly token?: TokenSource;
  /** How often the server is asked where it doesn't tell by itself that there is something new, in ms: 10,000. */
  readonly pollEvery?: number;
  /** The pauses after a failure, in ms: from 500, doubled each time, up to 60,000. */
  readonly retryFrom?: number;
  readonly retryMost?: number;
  /** How long a reply may take, in ms: 60,000. */
  readonly timeout?: number;
  /** What is done where a new client can take over: see `SyncOptions`. */
  readonly onProblem?: 'recover' | 'ask';
}

/** Sync over a transport of one's own: where the files are in this very thread (Node, memory). */
export type SyncOver = { readonly transport: Transport } & Omit<SyncWith, 'url' | 'token'>;

/** What is handed to another thread: a function can't be. */
export type SyncForm = Omit<SyncWith, 'token'> & { readonly token?: string; readonly asksForToken?: true };

export function formOf({ token, ...more }: SyncWith): SyncForm {
  if (typeof token === 'function') return { ...more, asksForToken: true };
  return token === undefined ? more : { ...more, token };
}

/** The options of a host: where a tab hands tokens over, it asks for them. */
export function optionsOf(form: SyncForm | SyncOver, host: Host): SyncOptions {
  if ('transport' in form) return form;
  const { url, token, asksForToken, ...more } = form;
  return { ...more, transport: transportOf(url, asksForToken ? (wasRefused) => host.askToken(wasRefused) : token) };
}
