import { MemoryFiles, ServerNode, openDatabase } from '../dist/node.js';
import { StorageFull } from '../dist/errors.js';
import { bigint, bool, bytes, counter, defineSchema, dict, int, key, link, list, nullable, set, text, time, uuid } from '../dist/index.js';

export const schema = defineSchema({
  lists: { id: key.uuid(), name: text() },
  items: {
    id: key.uuid(), list: link('lists'), title: text(), done: bool(), quantity: counter(), price: nullable(int()), exact: bigint(), blob: bytes(), when: time(), ref: uuid(),
    tags: set(text()), steps: list(text()), numbers: list(int()), prices: dict(int()), friends: list(link('lists')), maybe: nullable(text()), scores: set(int()),
  },
  days: { day: key.int(), note: text() },
  words: { word: key.text(), meaning: text() },
});

export const memory = (files = new MemoryFiles()) => openDatabase({ schema, files });

/** Files in memory of which one stroke fails: the one of that number from now. */
export class FailingFiles extends MemoryFiles {
  failAt = 0;
  strokes = 0;
  /** Whether the disk is gone: nothing can be opened. */
  isGone = false;
  /** How many files are open. */
  opened = 0;

  async open(name) {
    if (this.isGone) throw Object.assign(new Error('the disk is gone'), { code: 'EIO' });
    const file = await super.open(name);
    this.opened += 1;
    return { ...file, close: () => { this.opened -= 1; } };
  }

  stroke() {
    this.strokes += 1;
    if (this.failAt > 0 && --this.failAt === 0) throw new StorageFull('the test fails this stroke');
  }
}

/** A server in memory, and transports to it that can be cut. */
export async function server() {
  const files = new MemoryFiles();
  const node = await ServerNode.open(await files.open('history'));
  const watchers = new Set();
  const net = { node, isDown: false, count: 0, loseEach: 0, onMessage: null };
  net.transport = () => {
    let mine = () => {};
    const watcher = () => mine();
    watchers.add(watcher);
    return {
      async exchange(message) {
        if (net.isDown) throw new Error('down');
        const before = node.length;
        const reply = net.onMessage?.(message) ?? (await node.take(message));
        net.count += 1;
        if (net.loseEach && net.count % net.loseEach === 0) throw new Error('lost');
        if (node.length > before) setTimeout(() => watchers.forEach((it) => it !== watcher && it()), 0);
        return reply;
      },
      watch(callback) { mine = callback; return () => { mine = () => {}; watchers.delete(watcher); }; },
    };
  };
  return net;
}

export const plain = (rows) => JSON.stringify(rows, (_, it) => (typeof it === 'bigint' ? `${it}n` : it instanceof Set ? [...it].sort() : it instanceof Uint8Array ? [...it] : it && typeof it === 'object' && Object.getPrototypeOf(it) === null ? Object.fromEntries(Object.entries(it).sort()) : it));
export const objectsOf = (db) => plain([...schema.tables.keys()].map((name) => db.table(name).toArray()));

/** Draws below n, from a seed. */
export function draws(seed) {
  let x = BigInt(seed);
  return (n) => {
    x = (x * 6364136223846793005n + 1442695040888963407n) & 0xffffffffffffffffn;
    return Number((x >> 33n) % BigInt(n));
  };
}

/** A transaction of random edits that act, on columns of each kind, with values that may be spelled otherwise than they are read. */
export function randomEdits(tx, draw, ids) {
  for (let n = 1 + draw(4); n > 0; n--) {
    const id = ids[draw(ids.length)];
    if (!tx.items.has(id)) { tx.items.create({ id, title: `t${draw(9)}` }); continue; }
    const edits = [...editsOfValues(tx, draw, id, ids), ...editsOfMany(tx, draw, id, ids)];
    edits[draw(edits.length)]();
  }
}

const spelled = (draw, ids) => { const id = ids[draw(ids.length)]; return draw(2) ? id : id.toUpperCase(); };
const word = (draw) => (draw(9) ? `w${draw(6)}` : `half \ud800 ${draw(3)}`);

function editsOfValues(tx, draw, id, ids) {
  const at = tx.items.at(id);
  return [
    () => tx.items.update(id, { title: word(draw), done: draw(2) === 1, price: draw(2) ? draw(100) : null }),
    () => tx.items.update(id, { exact: draw(2) ? draw(9) : 2n ** 62n, maybe: draw(2) ? word(draw) : null, quantity: draw(2) ? -0 : 7n }),
    () => tx.items.update(id, { ref: spelled(draw, ids), list: draw(3) ? spelled(draw, ids) : null }),
    () => tx.items.update(id, { blob: Uint8Array.of(draw(256), 0), when: new Date((draw(2) ? 1 : -1) * draw(1e9)) }),
    () => at.quantity.add(draw(9) - 4), () => at.price.add(draw(9) - 4), () => at.exact.add(draw(2) ? 2n ** 62n : 3),
    () => draw(6) === 0 && tx.items.erase(id),
  ];
}

function editsOfMany(tx, draw, id, ids) {
  const at = tx.items.at(id), { steps } = tx.items.get(id), some = () => word(draw);
  return [
    () => at.tags.add(some()), () => at.tags.delete(some()), () => at.scores.add(draw(5), -0), () => at.scores.delete(draw(5)),
    () => at.steps.insert(draw(steps.length + 1), some()), () => at.steps.push(some(), some()), () => at.steps.removeValue(some()),
    () => steps.length && at.steps.remove(draw(steps.length)),
    () => steps.length && at.steps.replace(draw(steps.length), some()),
    () => steps.length && at.steps.move(draw(steps.length), draw(steps.length)),
    () => at.friends.push(spelled(draw, ids)), () => at.friends.removeValue(spelled(draw, ids)), () => at.numbers.push(draw(1000), -0),
    () => at.prices.set(some(), draw(50)), () => at.prices.delete(some()),
    () => draw(4) === 0 && at[['steps', 'tags', 'prices', 'friends', 'numbers'][draw(5)]].clear(),
  ];
}

/** Pauses for tests. */
export const fast = { retryFrom: 5, retryMost: 50, pollEvery: 1000 };
export const online = (net, files) => openDatabase({ schema, files, sync: { transport: net.transport(), ...fast } });
