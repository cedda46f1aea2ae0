// Reads what the commands print: outcome lines, and what `show` tells of a node. docs/FORMATS.md has the lines.

/** An outcome line as `{ kind, why, numbers, text }`: its first word, of a refusal the second one, and the numbers behind. */
function outcomeOf(line) {
  const text = line.slice(line.indexOf(' ') + 1);
  const [kind, ...rest] = text.split(' ');
  const why = kind === 'refused' ? rest.shift() : null;
  return { kind, why, numbers: rest.map(Number), text };
}

const linesOf = (text) => text.split('\n').slice(0, -1);

/** The outcome lines of a text. */
export const outcomesOf = (text) => linesOf(text).map(outcomeOf);

/** A dump as tables by name; each has its columns by name, and its objects by key, as the dump shows them. */
function tablesOf(lines) {
  const tables = new Map();
  for (const line of lines) {
    const said = JSON.parse(line);
    if ('cells' in said) tables.get(said.table).objects.set(JSON.stringify(said.key), said);
    else if ('column' in said) tables.get(said.table).columns.set(said.column, said);
    else tables.set(said.table, { key: said.key, columns: new Map(), objects: new Map() });
  }
  return tables;
}

function entryOf(line) {
  const [, version, origin, number, ms, hex] = line.split(' ');
  return { version: Number(version), origin: Number(origin), number: Number(number), ms: Number(ms), hex };
}

/**
 * What `show` tells of a client or of the server: `ident`, `cursor` and `unsent` of a client, the `history` of a server, the
 * lines of the objects as `dump`, and the same as values in `tables`.
 */
export function nodeOf(text) {
  const lines = linesOf(text);
  const [, ident, cursor, unsent] = lines[0].split(' ').map(Number);
  const dump = lines.filter((line) => line.startsWith('{'));
  const history = lines.filter((line) => line.startsWith('entry ')).map(entryOf);
  return { ident, cursor, unsent, history, dump, tables: tablesOf(dump), text };
}
