// All stored cases of commands that the module has, and the examples: node cases.mjs FOLDER MODULE. A case of a command that it has not is told.

import { existsSync, readdirSync, readFileSync } from 'node:fs';
import { join } from 'node:path';
import { call, commands, frontOfBytes, holds, root, tellCounts } from './module.mjs';

const THREADS = ['run', 'batch'];

// The stored cases: words, input, text and status.
function storedCases() {
  const folder = join(root, 'tests/cases');
  const names = readdirSync(folder).filter((kind) => kind !== 'usage')
    .flatMap((kind) => readdirSync(join(folder, kind)).filter((name) => name.endsWith('.words')).map((name) => join(folder, kind, name.slice(0, -6))));
  return names.map((name) => ({
    name: name.slice(root.length + 1),
    words: readFileSync(`${name}.words`, 'utf8').split('\n').filter((word) => word !== ''),
    input: existsSync(`${name}.in`) ? readFileSync(`${name}.in`) : Buffer.alloc(0),
    text: readFileSync(`${name}.out`),
    status: Number(readFileSync(`${name}.status`, 'utf8')),
  }));
}

// The examples as cases.
function exampleCases() {
  return readdirSync(join(root, 'examples')).filter((name) => name.endsWith('.csv')).map((name) => ({
    name: `examples/${name}`, words: ['replay'], input: readFileSync(join(root, 'examples', name)), status: 0,
    text: readFileSync(join(root, 'examples', name.replace(/csv$/, 'report'))),
  }));
}

const missing = new Map();
for (const { name, words, input, text, status } of [...storedCases(), ...exampleCases()]) {
  if (!commands.has(words[0])) {
    if (!THREADS.includes(words[0])) missing.set(words[0], (missing.get(words[0]) || 0) + 1);
    continue;
  }
  const answer = call(words, input);
  const isSame = answer.status === status && Buffer.compare(Buffer.from(answer.text), text) === 0;
  holds(name, isSame, `status ${answer.status}, wanted ${status}: ${frontOfBytes(answer.text)}`);
}
for (const [command, count] of missing) console.log(`play: skipped: the module has no ${command} (${count} cases)`);
tellCounts();
