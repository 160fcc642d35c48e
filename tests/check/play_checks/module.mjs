// What the checks of the module share: the module, calls of its commands, and the counting.

import { readFileSync } from 'node:fs';
import { dirname, join } from 'node:path';
import { fileURLToPath, pathToFileURL } from 'node:url';

/** The folder of the repository. */
export const root = join(dirname(fileURLToPath(import.meta.url)), '..', '..', '..');

// The folder into which tests/check/play puts the page's own modules under names that node takes for modules, and the module's file.
const [, , folder, file] = process.argv;
const { callCommand } = await import(pathToFileURL(join(folder, 'calls.mjs')));
const { COMMANDS, numberOfWord } = await import(pathToFileURL(join(folder, 'commands.mjs')));

/** The module, compiled. */
export const module = new WebAssembly.Module(readFileSync(file));
/** The names of its functions. */
export const functions = WebAssembly.Module.exports(module).map(({ name }) => name);
/** The commands that it has. */
export const commands = new Map(COMMANDS.filter(({ call }) => functions.includes(call)).map((command) => [command.name, command]));

/** Calls a command of the words of the program with bytes, in a memory of so many pages at most. */
export function call([name, ...words], bytes, mostPages = undefined) {
  const command = commands.get(name);
  const numbers = command.numbers.map((number, at) => numberOfWord(words[at], number));
  return callCommand(module, { call: command.call, numbers, bytes: command.reads === null ? null : bytes }, mostPages);
}

let [passed, failed] = [0, 0];

/** Counts a check as passed where it holds. */
export function holds(name, isTrue, told = '') {
  if (isTrue) passed += 1;
  else {
    failed += 1;
    console.log(`${name} ${told}`);
  }
}

/** Prints the counts, as each check ends. */
export function tellCounts() { console.log(`${passed} passed, ${failed} failed`); }

/** The front of a text in bytes. */
export function frontOfBytes(bytes, length = 80) { return new TextDecoder().decode(bytes.slice(0, length)); }
