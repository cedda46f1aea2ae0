// What a client says next, and what it answers to a message. Which message there is to send is the core's to say; when changes may be sent
// is decided here.

import { Status, expectDone, type Reply } from './door.js';
import type { Engine } from './engine.js';
import { Refused } from './errors.js';
import { Tag } from './messages.js';

export class Talk {
  /**
   * Whether the client had all of the history since its file was opened and since the last refusal. Until then it only asks: a file that
   * was copied, or restored from a backup, learns of it before a change of it is sent under a number that the history has already.
   */
  private isCurrent = false;
  /** The number of the last Stored. */
  private stored = 0;

  constructor(private readonly engine: Engine) {}

  /** The message to send next. */
  next(): Uint8Array {
    return this.isCurrent ? this.engine.ask('N') : this.question();
  }

  /** Bind, or the question for the history: what a client says that sends no change. */
  question(): Uint8Array {
    return this.engine.ask(this.engine.standing().ident === 0 ? 'N' : 'A');
  }

  /** A text that changes with each step forward. */
  progress(): string {
    const { ident, cursor, last, unsent } = this.engine.standing();
    return [ident, cursor, last, unsent, this.stored].join(' ');
  }

  /** Hands a message to the client, whose strokes then wait. Answers its refusal, and whether the message says that nothing is behind the
   * cursor. */
  take(message: Uint8Array): { refused: Refused | null; isEnd: boolean } {
    const { ident, cursor, last } = this.engine.standing();
    const head = this.engine.head(message);
    const stored = head?.tag === Tag.Stored && head.ident === ident ? head.first : 0;
    if (stored > last) {
      this.isCurrent = false;
      return { refused: new Refused('Forked', [last + 1, 0, 0]), isEnd: false };
    }
    const reply = this.engine.reply('T', message);
    if (reply.status === Status.Refused) {
      this.isCurrent = false;
      return { refused: refusalOf(reply), isEnd: false };
    }
    expectDone(reply);
    if (stored > 0) this.stored = stored;
    const isEnd = head?.tag === Tag.Download && head.count === 0 && head.ident === ident && head.first === cursor;
    if (isEnd) this.isCurrent = true;
    return { refused: null, isEnd };
  }
}

/** The refusal that a reply says. */
export function refusalOf(reply: Reply): Refused {
  try {
    expectDone(reply);
  } catch (error) {
    if (error instanceof Refused) return error;
    throw error;
  }
  throw new Error('nothing was refused');
}
