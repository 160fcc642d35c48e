// The commands of the module from a shell, by node: play/dex runs it. Words, streams and statuses are as docs/FORMATS.md has them.

import { Buffer } from 'node:buffer';
import { readFileSync, readSync, writeSync } from 'node:fs';
import process from 'node:process';
import { NO_MEMORY, callCommand } from './calls.js';
import { COMMANDS, numberOfWord } from './commands.js';

const MOST = 67108864;
const PIECE = 1048576;
/** The room for a text: more than that hardly any has. What is not written takes no memory. */
const ROOM = 536870912;
const USAGE = 'usage: dex replay, run, audit, dump, worth, make NUMBER ROWS, bulk NUMBER ROWS, migrate NODES EVENTS or batch WORKERS\n';
const WORKERS = { bits: 32, most: 16n };
/** The commands that need threads. */
const ON_THREADS = [{ name: 'run', call: null, numbers: [] }, { name: 'batch', call: null, numbers: [WORKERS] }];

// The command that words are, with its numbers; null where they are none.
function commandOf([name, ...words]) {
  const command = [...COMMANDS, ...ON_THREADS].find((one) => one.name === name);
  if (command === undefined || command.numbers.length !== words.length) return null;
  const numbers = command.numbers.map((number, at) => numberOfWord(words[at], number));
  return numbers.includes(null) ? null : { ...command, numbers };
}

// Does something to a stream, again while the stream is not ready.
function whenReady(act) {
  for (;;) {
    try {
      return act();
    } catch (fault) {
      if (fault.code !== 'EAGAIN') throw fault;
      Atomics.wait(new Int32Array(new SharedArrayBuffer(4)), 0, 0, 5);
    }
  }
}

// Standard input to its end, or to the first byte that is too many.
function readInput() {
  let [held, length] = [Buffer.allocUnsafe(PIECE), 0];
  for (;;) {
    const count = whenReady(() => readSync(0, held, length, held.length - length, null));
    length += count;
    if (count === 0 || length > MOST) return held.subarray(0, length);
    if (length === held.length) held = Buffer.concat([held], Math.min(2 * length, MOST + 1));
  }
}

// Writes a text to standard output.
function writeAll(text) {
  const bytes = typeof text === 'string' ? Buffer.from(text) : text;
  for (let at = 0; at < bytes.length;) at += whenReady(() => writeSync(1, bytes, at));
}

// What a command answers: a status and a text.
function answerOf({ call, numbers, reads }) {
  let bytes = null;
  if (reads !== null) {
    try {
      bytes = readInput();
    } catch {
      return { status: 4, text: 'read failed\n' };
    }
    if (bytes.length > MOST) return { status: 6, text: 'input too long\n' };
  }
  const module = new WebAssembly.Module(readFileSync(new URL('dex.wasm', import.meta.url)));
  const { status, text } = callCommand(module, { call, numbers, bytes, room: ROOM });
  return { status, text: status === NO_MEMORY ? 'no memory\n' : text };
}

// Ends with a status that tells that nothing was answered.
function fail(why) {
  process.stderr.write(`play/dex: ${why}\n`);
  process.exit(70);
}

const command = commandOf(process.argv.slice(2));
if (command !== null && command.call === null) fail(`${command.name} needs threads, and is not here: ./dex has it, and native/dex; nothing was run`);
let answer = { status: 1, text: USAGE };
try {
  if (command !== null) answer = answerOf(command);
} catch (fault) {
  if (!(fault instanceof RangeError)) fail(`the module broke off: ${fault}`);
  // There is no room for a memory of the module.
  answer = { status: NO_MEMORY, text: 'no memory\n' };
}
try {
  writeAll(answer.text);
} catch {
  answer.status = 5;
}
process.exit(answer.status);
