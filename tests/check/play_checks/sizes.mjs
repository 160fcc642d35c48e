// Inputs of the ends: empty, no text, 100,000 rows and one more, 64 MiB: node sizes.mjs FOLDER MODULE. Times are told and held to no bound.

import { readFileSync } from 'node:fs';
import { join } from 'node:path';
import { call, frontOfBytes, holds, root, tellCounts } from './module.mjs';

const MOST = 67108864;

// A command's answer to bytes begins so, at a status; how long it took is told where it is long.
function checkFront(name, words, bytes, status, front) {
  const from = performance.now();
  const answer = call(words, bytes);
  const seconds = (performance.now() - from) / 1000;
  holds(name, answer.status === status && frontOfBytes(answer.text, front.length) === front, `status ${answer.status}: ${frontOfBytes(answer.text)}`);
  if (seconds > 0.5) console.log(`play: ${name}: ${seconds.toFixed(1)} s, ${Math.round(answer.memory / 1048576)} MiB`);
}

// So many instruction rows behind the setup of an example.
function manyRows(count) {
  const lines = readFileSync(join(root, 'examples/two_traders.csv'), 'utf8').split('\n').filter((line) => line !== '');
  const setup = lines.filter((line) => !/^(do|ix),/.test(line));
  const acts = lines.filter((line) => /^(do|ix),/.test(line));
  return Buffer.from(`${[...setup, ...Array.from({ length: count }, (_, at) => acts[at % acts.length])].join('\n')}\n`);
}

// The most bytes, as rows that are as long as can be.
function longRows() {
  const named = Array.from({ length: 16 }, (_, at) => `0x${'ab'.repeat(31)}${String(at).padStart(2, '0')}`).join(' ');
  const setup = readFileSync(join(root, 'examples/two_traders.csv'), 'utf8').split('\n').filter((line) => /^(mint|wallet|market|orders),/.test(line)).join('\n');
  const row = `\nix,0,m,ann,${named},-,-,-,-,${Buffer.alloc(256).toString('base64')}`;
  return Buffer.from(setup + row.repeat(Math.floor((MOST - setup.length) / row.length)));
}

checkFront('nothing', ['replay'], Buffer.alloc(0), 0, 'report 0\ndump\nenddump\nend\n');
checkFront('nothing as a dump', ['audit'], Buffer.alloc(0), 3, 'dump refused row 1: 1 Grammar');
checkFront('bytes that are no text', ['replay'], Buffer.from([255, 254, 0, 128, 44, 200]), 2, 'script refused row 1: 1 BadCsv');
checkFront('bytes that are no text, as a dump', ['audit'], Buffer.from([255, 254, 0, 128, 44, 200]), 3, 'dump refused row 1: 1 Grammar');
checkFront('100,000 rows', ['replay'], manyRows(100000), 0, 'report 100000\n');
checkFront('100,001 rows', ['replay'], manyRows(100001), 2, 'script refused row 100010: 8 OverLimit');
checkFront('64 MiB of zero bytes', ['replay'], Buffer.alloc(MOST), 2, 'script refused row 1: 1 BadCsv');
checkFront('64 MiB of line feeds', ['replay'], Buffer.alloc(MOST, 10), 0, 'report 0\n');
checkFront('8 MiB of commas', ['replay'], Buffer.alloc(MOST / 8, 44), 2, 'script refused row 1: 2 UnknownRow');
checkFront('64 MiB of long rows', ['replay'], longRows(), 0, 'report ');
tellCounts();
