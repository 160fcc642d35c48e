// Long scripts whose fronts are kept while rows change: node kept.mjs FOLDER MODULE. Scripts are changed row by row, as drawn by a number; each
// answer, in two parts where a front is kept, is that of a replay of the whole, byte by byte. Each report is read beside the one before it, of
// which much stands in it again: what is read is what reading it alone gives, also where a line of it is broken.

import { readdirSync, readFileSync } from 'node:fs';
import { join } from 'node:path';
import { pathToFileURL } from 'node:url';
import { call, frontOfBytes, holds, root, tellCounts } from './module.mjs';

const { Kept } = await import(pathToFileURL(join(process.argv[2], 'play/kept.js')));
const { readText } = await import(pathToFileURL(join(process.argv[2], 'page/report.js')));

const CHANGES = 40;
// Rows that are at fault, or empty.
const FAULTS = ['mint,late,6', 'program,openbook', 'do,0,m,ann,amy,-,-,-,-,settl', '', 'do,0,nowhere,ann,amy,-,-,-,-,settle'];

// Numbers that are drawn, the same at each call.
function drawsOf(seed) {
  let state = seed;
  return (count) => {
    state = (Math.imul(state, 1103515245) + 12345) >>> 0;
    return (state >>> 8) % count;
  };
}

// The lines with one changed: another number in it, taken out, put in twice, two of them in each other's place, or a fault.
function changed(lines, draw) {
  const at = draw(4) === 0 ? draw(lines.length) : Math.max(0, lines.length - 1 - draw(Math.ceil(lines.length / 2)));
  const made = [...lines];
  const kind = draw(8);
  if (kind < 3) made[at] = made[at].replace(/[0-9]+(?=[^0-9]*$)/, String(1 + draw(70)));
  else if (kind === 3) made.splice(at, 1);
  else if (kind === 4) made.splice(at, 0, lines[draw(lines.length)]);
  else if (kind === 5) made.splice(at, 0, `clock,${draw(50)}`);
  else if (kind === 6) made.push(lines[lines.length - 1 - draw(Math.ceil(lines.length / 3))]);
  else made[at] = [...FAULTS, `${made[at]} `][draw(FAULTS.length + 1)];
  return made;
}

// All that was read of a report's journals, or what is wrong with it, as text.
function plain(read) {
  if (read instanceof Error) return `${read.line}: ${read.message}`;
  const told = (name, value) => {
    if (['lines', 'same', 'exchange'].includes(name)) return undefined;
    if (value instanceof Map) return [...value];
    return typeof value === 'bigint' ? String(value) : value;
  };
  return JSON.stringify(read, told);
}

// A text with one line broken: a number in it another, the line taken out, or another line in its place.
function broken(text, draw) {
  const lines = text.slice(0, text.indexOf('\ndump\n')).split('\n');
  const at = draw(lines.length);
  if (draw(3) === 0) lines.splice(at, 1);
  else if (draw(2) === 0) lines[at] = lines[draw(lines.length)];
  else lines[at] = lines[at].replace(/[0-9](?=[^0-9]*$)/, String(draw(10)));
  return lines.join('\n') + text.slice(text.indexOf('\ndump\n'));
}

// Reads a report alone and beside the one before, and both with a line broken; answers what was read.
async function checkReading(name, text, before, draw) {
  const [alone, beside] = [await readText(text), await readText(text, () => {}, before)];
  holds(`${name}, read beside the report before`, plain(alone) === plain(beside));
  if (draw(2) === 0) return beside;
  const wrong = broken(text, draw);
  const [one, other] = await Promise.all([readText(wrong), readText(wrong, () => {}, beside)].map((read) => read.catch((fault) => fault)));
  holds(`${name}, a broken line`, plain(one) === plain(other), `${plain(other).slice(0, 200)}; wanted ${plain(one).slice(0, 200)}`);
  return beside;
}

// A script with one change after another; how many of the answers were in two parts.
async function checkScript(name, script, seed) {
  const draw = drawsOf(seed);
  const kept = new Kept(1, Infinity);
  const ask = async (bytes) => call(['replay'], bytes);
  const first = script.split('\n').filter((line) => line !== '');
  let [lines, good] = [first, first];
  let parted = 0;
  let report = null;
  let preparing = null;
  for (let change = 0; change < CHANGES; change += 1) {
    const made = change === 0 ? lines : changed(lines, draw);
    const text = `${made.join('\n')}\n`;
    const bytes = new TextEncoder().encode(text);
    const found = await kept.answer(ask, text, bytes);
    const wanted = call(['replay'], bytes);
    const isSame = found.status === wanted.status && Buffer.compare(Buffer.from(found.text), Buffer.from(wanted.text)) === 0;
    holds(`${name}, change ${change}`, isSame, `status ${found.status}, wanted ${wanted.status}: ${frontOfBytes(found.text)}`);
    if (found.isJoined) parted += 1;
    if (found.status === 0) report = await checkReading(`${name}, change ${change}`, new TextDecoder().decode(found.text), report, draw);
    // A fault stands for one change more at most.
    if (wanted.status === 0) good = made;
    lines = wanted.status !== 0 && lines === good && draw(2) === 0 ? made : good;
    // What is kept is made at once, or beside the next answer.
    if (draw(5) > 0) preparing = kept.prepare(async (given) => { await new Promise(setImmediate); return ask(given); });
    if (draw(2) === 0) await preparing;
  }
  return parted;
}

// The dump that a script leaves, with its instruction rows behind it.
function behindDump(script) {
  const { text } = call(['dump'], Buffer.from(script));
  return `${Buffer.from(text)}program,openbook\nclock,3\n${script.split('\n').filter((line) => /^(do|ix|swap),/.test(line)).join('\n')}\n`;
}

const examples = readdirSync(join(root, 'examples')).filter((name) => name.endsWith('.csv'));
const files = [...examples.map((name) => `examples/${name}`), 'tests/data/swaps.csv'];
const scripts = files.map((name) => [name, readFileSync(join(root, name), 'utf8')]).filter(([, script]) => !script.startsWith('dump'));
scripts.push(['make 7 60', Buffer.from(call(['make', '7', '60'], Buffer.alloc(0)).text).toString()]);
scripts.push(['behind a dump', behindDump(readFileSync(join(root, 'examples/deep_book.csv'), 'utf8'))]);
let parted = 0;
for (const [at, [name, script]] of scripts.entries()) parted += await checkScript(name, script, at + 1);
holds('many answers were in two parts', parted > 10 * scripts.length, `${parted} of ${CHANGES * scripts.length}`);
tellCounts();
