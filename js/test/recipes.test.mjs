// The blocks of docs/RECIPES.md, one after the other, as one program.
import assert from 'node:assert/strict';
import fs from 'node:fs';
import os from 'node:os';
import path from 'node:path';
import test from 'node:test';
import { pathToFileURL } from 'node:url';

test('the recipes run', async () => {
  const text = fs.readFileSync(new URL('../../docs/RECIPES.md', import.meta.url), 'utf8');
  const blocks = [...text.matchAll(/^```js recipe\n([\s\S]*?)^```$/gm)].map((it) => it[1]);
  assert.ok(blocks.length > 5);
  const program = `import assert from 'node:assert/strict';\n${blocks.join('\n')}`
    .replace("'realm-sync/node'", JSON.stringify(new URL('../dist/node.js', import.meta.url).href))
    .replaceAll('console.assert(', 'assert(');
  const folder = fs.mkdtempSync(path.join(os.tmpdir(), 'recipes-'));
  fs.writeFileSync(path.join(folder, 'recipes.mjs'), program);
  await import(pathToFileURL(path.join(folder, 'recipes.mjs')).href);
  fs.rmSync(folder, { recursive: true });
});
