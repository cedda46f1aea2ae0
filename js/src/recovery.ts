// A new client takes a refused one's place, and saves what that had unsent: docs/FORMATS.md, "Recovering what an old client had unsent".

import { Status, type Standing } from './door.js';
import { Engine, four } from './engine.js';
import { NeedsAttention, Refused, wordsOfCode } from './errors.js';
import { Tag, changesOf, editsOf, type Change } from './messages.js';
import { problem as problemFor, type Problem } from './problems.js';
import { Talk, refusalOf } from './talk.js';

/** An edit that the new client couldn't keep, as JSON, and why. */
export interface Dropped {
  readonly number: number;
  readonly ms: number;
  readonly edit: string;
  readonly why: string;
}

/** What became of the changes that a client had unsent when a new one took its place. */
export interface Recovery {
  readonly problem: Problem;
  /** How many of them were in the history already. */
  readonly integrated: number;
  /** How many the new client has now, without the edits in `dropped`. */
  readonly saved: number;
  readonly dropped: readonly Dropped[];
}

/** Gives a new client its uuid, and brings its file to form 2, unless both was done. */
export async function born(engine: Engine): Promise<void> {
  try {
    await engine.line(`{"uuid":"${crypto.randomUUID()}"}`);
  } catch (error) {
    if (!(error instanceof Refused && error.reason === 'AlreadyBorn')) throw error;
  }
  // Also where it was killed between the two.
  await engine.line('{"upgrade":2}');
}

export class Takeover {
  private readonly talk: Talk;
  /** The old client's changes in the history: their times, by their numbers. */
  private own: ReadonlyMap<number, bigint> = new Map();
  /** What another new client saved that had taken the old one's place before: that of a copy of this file. */
  private savedByOther: readonly Change[] = [];

  constructor(
    private readonly heir: Engine,
    private readonly exchange: (message: Uint8Array) => Promise<Uint8Array>,
    private readonly problem: Problem,
  ) {
    this.talk = new Talk(heir);
  }

  /** The new client takes the history, retires the old one, and takes what that had sent before. False where it has to be begun anew. */
  async join(old: Standing): Promise<boolean> {
    await born(this.heir);
    await this.takeAll();
    // At another server the old ident may be somebody else's: it is left alone, and nothing of the old client is in that history. One that was
    // restored is the same as it was once: what it has of the old client isn't saved again, and its service takes no more of it.
    if (this.problem.kind === 'otherServer') {
      if (this.problem.generation) this.own = await this.changesOfOld(old.ident);
      return true;
    }
    const other = await this.retire(old.ident);
    await this.takeAll();
    this.own = await this.changesOfOld(old.ident);
    if (other === null) return true;
    this.savedByOther = changesOf(other, await this.heir.bytes());
    // What a try that was cut off has saved already, the other one may have sent since.
    return this.heir.standing().last === 0;
  }

  private async changesOfOld(ident: number): Promise<ReadonlyMap<number, bigint>> {
    return new Map(changesOf(ident, await this.heir.bytes()).map(({ number, ms }) => [number, ms]));
  }

  /** It sends no change: one that it saved in a try that was cut off is in no history before it has taken the old client's place. */
  private async takeAll(): Promise<void> {
    for (let isEnd = false; !isEnd;) {
      const reply = await this.exchange(this.talk.question());
      const taken = this.talk.take(reply);
      await this.heir.settled(null);
      if (taken.refused) throw taken.refused;
      isEnd = taken.isEnd;
    }
  }

  /** From then on the server takes no change under the old ident. Answers the ident for which it was retired before, where it was. */
  private async retire(ident: number): Promise<number | null> {
    if (ident === 0) return null;
    const reply = await this.exchange(this.heir.ask('G', four(ident)));
    const head = this.heir.head(reply);
    if (head?.tag === Tag.Retired && head.ident === ident) return null;
    const { second: code, third: place } = head?.tag === Tag.Refused ? head : { second: 0, third: 0 };
    if (code === 70) return place;
    // Not an ident of this server, or the new client's own: there is nothing to retire.
    if (code === 60 || code === 69) return null;
    throw new NeedsAttention(problemFor('retired', `the server refuses to give the old client up: code ${code}`, false));
  }

  /**
   * Commits in the new client what the old one has unsent, in order. A change is in the history where it belongs to the longest beginning
   * of the unsent ones whose numbers and times stand there under the old ident. The number alone doesn't say it: a file that was restored
   * from a backup gives numbers anew.
   */
  async inherit(old: Engine): Promise<Recovery> {
    const dropped: Dropped[] = [];
    if (this.problem.kind === 'otherServer') this.define(definitionsOf(old.dump()));
    let integrated = 0, saved = 0, isBeginning = true, byOther = 0;
    const { ident } = old.standing(), before = this.problem.kind === 'otherServer' ? this.heir.standing().last : 0;
    for (const change of old.unsent()) {
      isBeginning &&= this.own.get(change.number) === change.ms;
      const other = this.savedByOther[byOther];
      if (isBeginning || (other && isSavedAs(change, other))) {
        integrated += 1;
        byOther += isBeginning ? 0 : 1;
        continue;
      }
      byOther = Infinity; // from here on the copies were apart
      saved += 1;
      dropped.push(...this.save(ident, change, before + saved));
    }
    await this.heir.settled(null);
    return { problem: this.problem, integrated, saved, dropped };
  }

  /** The new client takes a change of the old one as its transaction of that number, unless a try that was cut off did. Answers the edits that
   * it couldn't keep. */
  private save(ident: number, { number, ms, body }: Change, place: number): Dropped[] {
    // For the core the changes of an old client begin behind those that are in the history: they are counted from the first one that isn't.
    const head = new Uint8Array(28), view = new DataView(head.buffer);
    [ident, this.heir.standing().ident, 0, place, 0].forEach((it, at) => view.setUint32(4 * at, it, true));
    view.setBigUint64(20, ms, true);
    const request = new Uint8Array(head.length + body.length);
    request.set(head);
    request.set(body, head.length);
    const answer = this.heir.ask('K', request);
    const told = new DataView(answer.buffer, answer.byteOffset, answer.byteLength);
    const dropped: Dropped[] = [];
    for (let at = 5; at < answer.length; at += 8) {
      const edit = editsOf(body)[told.getUint32(at, true)]!;
      dropped.push({ number, ms: Number(ms), edit, why: wordsOfCode(told.getUint32(at + 4, true)) });
    }
    return dropped;
  }

  /** Adds tables and columns, but those that the history has otherwise. */
  private define(edits: string[]): void {
    while (edits.length > 0) {
      const reply = this.heir.reply('L', `{"ms":0,"edits":[${edits.join(',')}]}`);
      if (reply.status === Status.Done) return;
      const refusal = refusalOf(reply);
      if (refusal.reason !== 'Break') throw refusal;
      edits.splice(refusal.details[0], 1);
    }
  }
}

const withoutPlaces = (edit: string): string => JSON.stringify({ ...JSON.parse(edit), place: 0, prior: 0 });

/** Whether a change that another new client saved is this one: of the same time, and each of its edits, in order, is one of this. Places in
 * lists may be others by then, and what couldn't be kept isn't there. */
function isSavedAs(change: Change, other: Change): boolean {
  if (change.ms !== other.ms) return false;
  const rest = editsOf(change.body).map(withoutPlaces);
  return editsOf(other.body).map(withoutPlaces).every((edit) => {
    const at = rest.indexOf(edit);
    rest.splice(0, at + 1);
    return at >= 0;
  });
}

/** The edits that make the tables and columns of a dump: what the old client has unsent rests on them, and another server may lack them. */
function definitionsOf(dump: string): string[] {
  const lines = dump.split('\n').filter((it) => it !== '' && !it.startsWith('{"cells"')).map((it) => JSON.parse(it) as { column?: string });
  const edits = lines.map((it) => JSON.stringify({ op: it.column === undefined ? 'AddTable' : 'AddColumn', ...it }));
  return [...edits.filter((it) => it.startsWith('{"op":"AddTable"')), ...edits.filter((it) => it.startsWith('{"op":"AddColumn"'))];
}
