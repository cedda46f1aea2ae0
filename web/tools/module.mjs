// Commands through the module, in node and in a browser alike. Bytes go in and come out as base64.

import { Files } from '../src/files.js';
import { runProgram } from '../src/program.js';

const bytesOf = (text) => Uint8Array.from(atob(text), (character) => character.charCodeAt(0));

function textOf(bytes) {
  let text = '';
  for (const byte of bytes) text += String.fromCharCode(byte);
  return btoa(text);
}

/**
 * Runs commands over files of their own: for each its exit status, what it wrote, and what stands in its file then. A file that no
 * earlier command made begins as it was `before`.
 */
export function commandsIn(module, commands) {
  const files = new Files();
  return commands.map(({ words, input, before }) => {
    if (before !== null && !files.get(words[1])) files.put(words[1], bytesOf(before));
    const { exit, output } = runProgram(module, words, bytesOf(input), files);
    const file = files.get(words[1]);
    return { exit, output: textOf(output), file: file ? textOf(file.bytes) : null };
  });
}
