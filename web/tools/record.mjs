#!/usr/bin/env node
// Stands for the program in a script: runs PROGRAM with the words and the input that are given, and appends to the file RECORD what
// came of it, and its file before and after. In a pipeline a command's record stands before those of the commands that read
// what it wrote.

import { spawnSync } from 'node:child_process';
import fs from 'node:fs';

const words = process.argv.slice(2);
const bytesOf = (name) => (fs.existsSync(name) ? fs.readFileSync(name).toString('base64') : null);

const input = fs.readFileSync(0);
const before = bytesOf(words[1]);
const { status: exit, stdout, stderr } = spawnSync(process.env.PROGRAM, words, { input, maxBuffer: 1 << 28 });
const record = { words, input: input.toString('base64'), before, exit, output: stdout.toString('base64'), file: bytesOf(words[1]) };
fs.appendFileSync(process.env.RECORD, `${JSON.stringify(record)}\n`);
fs.writeSync(2, stderr);
for (let at = 0; at < stdout.length; ) at += fs.writeSync(1, stdout, at);
process.exitCode = exit;
