// How long a key in play.html takes, from the key to the views: node play_keys.mjs CHROMIUM MODULE PAGE.. opens each page with made scripts of
// some lengths, changes a number in the last row, or in the middle, KEYS times (8) after one another, and prints the least milliseconds and
// the median. The first two keys, after which the page has kept what stands before the row, are told by themselves.

import { readFileSync } from 'node:fs';
import { callCommand } from '../../play/calls.js';
import { Browser } from '../check/view_browser/browser.mjs';
import { Player } from '../check/play_checks/player.mjs';
import { mkdtempSync, rmSync } from 'node:fs';
import { tmpdir } from 'node:os';
import { join, resolve } from 'node:path';

const [, , chromium, file, ...pages] = process.argv;
const KEYS = Number(process.env.KEYS || '8');
const module = new WebAssembly.Module(readFileSync(file));
const made = (rows) => new TextDecoder().decode(callCommand(module, { call: 'dex_make', numbers: [7n, rows], bytes: null }).text);
const folder = mkdtempSync(join(tmpdir(), 'play_keys'));
const browser = new Browser(chromium, join(folder, 'profile'));

// The milliseconds from a key, which puts a number behind the row at a place of the field, to the page's being calm.
function keyTime(player, place, number) {
  return player.page.run(async (share, digits) => {
    const area = document.querySelector('textarea');
    const at = area.value.lastIndexOf('\n', share < 1 ? Math.floor(area.value.length * share) : area.value.length - 2);
    const from = area.value.lastIndexOf(' ', at) + 1;
    area.focus();
    area.setSelectionRange(from, at);
    const begun = performance.now();
    document.execCommand('insertText', false, digits);
    while (document.body.dataset.busy !== undefined) await new Promise((resume) => { setTimeout(resume, 1); });
    return performance.now() - begun;
  }, place, String(number));
}

// A line of the table: a page with a script.
async function measure(page, rows, place, what) {
  const player = new Player(await browser.page(1200, 900), resolve(page));
  await player.open();
  await player.drop('made.csv', made(rows));
  const times = [];
  for (let key = 0; key < KEYS + 2; key += 1) {
    times.push(await keyTime(player, place, 1 + (key % 7)));
    await new Promise((resume) => { setTimeout(resume, rows / 20 + 100); });
  }
  const later = times.slice(2).sort((one, other) => one - other);
  const told = [times[0], times[1], later[0], later[later.length >> 1]].map((time) => time.toFixed(0));
  console.log(`|${page.split('/').pop()}|${rows}|${what}|${told.join('|')}|`);
  await player.page.close?.();
}

console.log('|Page|Rows|Key|First|Second|Least|Median|\n|---|---|---|---|---|---|---|');
try {
  for (const rows of (process.env.ROWS || '200 1000 5000 20000').split(' ').map(Number)) {
    for (const page of pages) {
      await measure(page, rows, 1, 'in the last row');
    }
  }
} finally {
  await browser.close();
  rmSync(folder, { recursive: true, force: true, maxRetries: 20, retryDelay: 100 });
}
