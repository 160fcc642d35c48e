// What the page answers: examples and stored cases as they are stored, a change at once, rows at fault, commands on what a script leaves.

import { existsSync, readdirSync } from 'node:fs';
import { join } from 'node:path';
import { root, stored } from '../view_browser/texts.mjs';

// The names of the cases of a folder.
function casesOf(folder) {
  return readdirSync(join(root, 'tests/cases', folder)).filter((name) => name.endsWith('.words')).map((name) => name.slice(0, -6)).sort();
}

// How long the first answer took; then the short example and its report.
async function checkFirst(suite, player) {
  await player.open();
  const first = (await player.page.run(() => window.performance.getEntriesByName('first answer')[0].startTime)) / 1000;
  console.log(`play: the first example and its report stood ${first.toFixed(2)} s after the page was opened`);
  suite.same('at first: the script', await player.rows(), stored('examples/two_traders.csv'));
  suite.same('at first: the report', (await player.saved()).text, stored('examples/two_traders.report'));
  suite.same('at first: the view', await player.page.run(() => document.querySelector('main').dataset.view), 'book');
  suite.same('at first: the best ask', await player.page.run(() => document.querySelector('[data-name="best ask"]').value), '50');
  suite.holds('at first: what is proved', (await player.named('proved')).includes('Not proved are'));
  suite.same('at first: nothing is asked for', player.page.requests(), []);
}

// All examples of the choice, by their stored reports.
async function checkExamples(suite, player) {
  const options = await player.page.run(() => [...document.querySelectorAll('[data-key="choice Example"] option')].map(({ value }) => value));
  const names = options.filter((name) => name !== '');
  suite.holds('there are examples', names.length > 5);
  for (const name of names) {
    await player.page.choose('Example', name);
    await player.calm();
    const { text } = await player.saved();
    suite.same(`example ${name}`, text, stored(`examples/${name}.report`));
  }
}

// Cases by their folder and the front of their name.
const CASES = ['replay/0008', 'replay/0021', 'scripts/fault_6_unknown_wallet', 'faulty/0', 'dump/0301', 'audit/0408', 'audit/0446', 'audit/0452',
  'migrate/0', 'worth/', 'made/'];

// Some stored cases of each command.
async function checkCases(suite, player) {
  const offered = await player.commands();
  for (const name of CASES) {
    if (!existsSync(join(root, 'tests/cases', name.split('/')[0]))) continue;
    const [folder, front] = name.split('/');
    const full = casesOf(folder).find((one) => one.startsWith(front));
    const path = `tests/cases/${folder}/${full}`;
    const words = stored(`${path}.words`).trim().split('\n');
    if (!offered.includes(words[0])) continue;
    if (folder !== 'made') await player.drop(`${full}.csv`, stored(`${path}.in`));
    await player.command(...words);
    suite.same(`case ${path}`, (await player.saved()).text, stored(`${path}.out`));
  }
  await player.command('replay');
}

// A price that is changed, and what follows at once.
async function checkChange(suite, player) {
  await player.open();
  await player.replace('new bid 60 3 2000', 'new bid 45 3 2000');
  suite.same('a price that nobody meets: the ask rests whole', await player.page.run(() => document.querySelector('main .rows .row').dataset.row), 'ask 50 4 4');
  suite.holds('the row at the caret: how it was answered', (await player.named('reply')).includes('filled nothing'));
  await player.replace('new bid 45 3 2000', 'new bid 60 3 2000');
  suite.same('the price as it was: the report too', (await player.saved()).text, stored('examples/two_traders.report'));
}

// A row at fault: it is marked, told with its remedy, and the views stay as they stood.
async function checkFault(suite, player) {
  await player.replace('settle\ndo,1', 'setle\ndo,1');
  const fault = await player.named('row fault');
  suite.holds('a row at fault: it is told', fault.startsWith('Row 16: 2 UnknownRow.') && fault.includes('Spell the row’s first field'), fault);
  suite.same('a row at fault: its number is marked', await player.page.texts('.gutter .fault-row'), ['16']);
  suite.holds('a row at fault: its line is marked', await player.page.run(() => {
    const [band, area] = [document.querySelector('.band'), document.querySelector('textarea')].map((node) => node.getBoundingClientRect());
    return !document.querySelector('.band').hidden && Math.abs(band.top - area.top - 6 - 15 * 20) < 2;
  }));
  suite.holds('a row at fault: the views are told to be older', (await player.named('told')).startsWith('Row 16 is at fault'));
  suite.same('a row at fault: the views stay', await player.page.run(() => document.querySelector('main').dataset.view), 'book');
  await player.click('Go to row 16');
  suite.same('a row at fault: one goes to it', await player.page.run(() => window.getSelection().toString()), 'do,0,m,ann,amy,ann_coin,ann_usd,-,-,setle');
  await player.replace('setle', 'settle');
  suite.same('mended: no fault is told', await player.named('row fault'), '');
  suite.same('mended: no mark', await player.page.texts('.gutter .fault-row'), []);
}

// Refused rows are marked beside the field, as the report has them.
async function checkMarks(suite, player) {
  suite.same('refused rows are marked', await player.page.texts('.gutter .refused-row'), ['14', '18']);
}

// Commands that read a dump are handed the dump that the script leaves.
async function checkAfterScript(suite, player) {
  await player.command('audit');
  suite.same('audit of a script: of the accounts that it leaves', (await player.saved()).text, 'audit ok 1 4\n');
  suite.holds('audit of a script: it is said', (await player.named('told')).startsWith('audit of the accounts that the script leaves: status 0'));
  await player.command('migrate', '3', '4');
  suite.holds('migrate: a dump', (await player.saved()).text.startsWith('dump\nmint,coin,'));
  await player.click('Play on from it');
  suite.holds('played on: the dump is folded', (await player.named('folded')).startsWith('A dump of 11 rows'));
  suite.same('played on: the field is empty', await player.rows(), '');
  await player.page.run(() => document.querySelector('textarea').focus());
  await player.replace('', 'do,0,m,ann,amy,-,-,-,-,consume 10\n');
  suite.same('played on: rows count behind the dump', await player.page.text('.gutter span'), '12');
  suite.holds('played on: its report', (await player.saved()).text.startsWith('report 1\nmarket m 1\nentry 0 12 ok consumed 0'));
  await player.command('migrate', '0', '4');
  suite.holds('a number out of its limits is told', (await player.named('told')).startsWith('migrate wants Nodes from 1 to 65,536'));
  await player.command('make', '7', '100');
  suite.holds('make: a script', (await player.saved()).text.startsWith('mint,base,6\n'));
  await player.click('Play on from it');
  suite.holds('a made script is played', (await player.saved()).text.startsWith('report 116\n'));
}

// A joined answer whose whole the module cannot give any more: saving tells so, and saves nothing.
async function checkLost(suite, player) {
  await player.page.run(() => {
    const { postMessage } = Worker.prototype;
    window.keptBlob = null;
    Worker.prototype.postMessage = function lose() {
      Worker.prototype.postMessage = postMessage;
      this.onmessage({ data: { status: 7 } });
    };
  });
  await player.click('Save the answer');
  const words = await player.named('fault');
  suite.holds('no whole to save: it is told', words.startsWith('Memory ran out') && words.endsWith('Nothing is saved.'), words);
  suite.same('no whole to save: nothing is', await player.page.run(() => window.keptBlob === null), true);
}

// A long script that is changed again and again at one row: what stands before it is kept soon, and the rows from it on are replayed alone. That
// is told, with the length of the joined report; what is saved is a replay of the whole.
async function checkLong(suite, player) {
  await player.command('make', '7', '4000');
  await player.click('Play on from it');
  await player.click('Last', '.parts');
  let row = (await player.rows()).trimEnd().split('\n').pop();
  let told = '';
  for (let change = 1; change <= 40 && !told.includes('joined'); change += 1) {
    await player.replace(row, `do,0,m0,u0,o0_0,-,-,-,-,cancelc ${change}`);
    row = `do,0,m0,u0,o0_0,-,-,-,-,cancelc ${change}`;
    told = await player.named('told');
    await new Promise((resume) => { setTimeout(resume, 300); });
  }
  const isTold = told.startsWith('replay of the rows from a changed one on, joined: status 0');
  suite.holds('a long script: rows from the changed one on are replayed alone', isTold, told);
  const { text } = await player.saved();
  suite.same('a long script: its report', text.slice(0, text.indexOf('\n')), 'report 4016');
  suite.holds('a long script: as long as the joined one', told.includes(`${text.length.toLocaleString('en')} bytes`), `${text.length}, ${told}`);
  await checkLost(suite, player);
  await player.replace(row, 'do,0,m0,u0,o0_0,-,-,-,-,cancelc');
  const fault = await player.named('row fault');
  const whole = (await player.saved()).text;
  const isSame = /^script refused row /.test(whole) && fault.startsWith(`Row ${whole.slice(19, -1)}.`);
  suite.holds('a long script: a fault at the row at which the whole has it', isSame, `${fault}, ${whole}`);
}

/** What is answered. */
export async function answerCases(suite) {
  const player = await suite.player(1280, 900);
  await checkFirst(suite, player);
  await checkExamples(suite, player);
  await checkCases(suite, player);
  await checkChange(suite, player);
  await checkMarks(suite, player);
  await checkFault(suite, player);
  await checkAfterScript(suite, player);
  await checkLong(suite, player);
  await player.page.close();
}
