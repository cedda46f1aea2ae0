// Runs the compiled program over a text and files in memory, as a shell would: arguments, standard input, standard output, exit
// status. Each run is a new instance with a memory of its own, so that what one run leaves for the next are its files alone.

import { Files, Openings } from './files.js';
import { libraryFor } from './library.js';

const encoder = new TextEncoder();

/** Pieces of bytes as one. */
export function joined(pieces) {
  const whole = new Uint8Array(pieces.reduce((sum, piece) => sum + piece.length, 0));
  let at = 0;
  for (const piece of pieces) {
    whole.set(piece, at);
    at += piece.length;
  }
  return whole;
}

/** The program's standard input, and what it writes to standard output and errors. */
class Streams {
  constructor(input) {
    this.input = input;
    this.taken = 0;
    this.written = { 1: [], 2: [] };
  }

  read(descriptor, length) {
    const piece = this.input.subarray(this.taken, this.taken + length);
    this.taken += piece.length;
    return piece;
  }

  write(descriptor, bytes) {
    this.written[descriptor].push(bytes.slice());
  }
}

/**
 * One run of the program: `words` are its arguments, `input` the bytes of its standard input, `files` those that it may open.
 * @returns {{ exit: number, output: Uint8Array, errors: Uint8Array, memory: number }}
 */
export function runProgram(module, words, input, files = new Files()) {
  const spelled = ['realm_sync', ...words].map((word) => encoder.encode(word));
  const streams = new Streams(input);
  const openings = new Openings(files);
  let instance;
  const buffer = () => instance.exports.memory.buffer;
  instance = new WebAssembly.Instance(module, { env: libraryFor(buffer, spelled, streams, openings) });
  try {
    const exit = instance.exports.program_main();
    return { exit, output: joined(streams.written[1]), errors: joined(streams.written[2]), memory: buffer().byteLength };
  } finally {
    openings.end();
  }
}
