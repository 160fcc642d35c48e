// Texts that lie, and texts that are long in odd ways: what the page shows of them, and that it can act while it reads.

import { readText } from '../../../page/report.js';
import { readScript } from '../../../page/script.js';
import { linesOf as linesOfTable } from '../../../page/table_text.js';
import { makePage, stored } from './texts.mjs';

const SIGNERS = 70000;
const LARGE_ROW = '9007199254740993';
// The page may be kept waiting by a machine that is busy; before, it stood still for ten seconds and more.
const MOST_STILL = 2500;

// A script in which each row has a signer and an account of its own.
function manySigners() {
  const setup = stored('examples/two_traders.csv').split('\n').filter((line) => /^(mint|wallet|market|orders),/.test(line));
  const rows = Array.from({ length: SIGNERS }, (_, at) => `do,0,m,s${at},a${at},-,-,-,-,init`);
  return { text: `${[...setup, ...rows].join('\n')}\n`, first: setup.length + 1 };
}

// More distinct words than 16 bits can number: each row keeps its own signer.
async function wordCases(suite) {
  const { text, first } = manySigners();
  const script = await readScript(text, () => {});
  const wrong = Array.from({ length: SIGNERS }, (_, at) => at)
    .filter((at) => script.signerOf(first + at) !== `s${at}` || script.accountOf(first + at) !== `a${at}`);
  suite.same('70,000 words: rows with another signer or account', wrong.length, 0);
  const page = await suite.browser.page(1280, 900);
  await page.open(makePage(suite.folder, text), 'script/?signer=s65999');
  suite.same('70,000 words: rows of a signer', await page.text('h2'), `1 row of ${(first + SIGNERS - 1).toLocaleString('en')} rows`);
  await page.close();
}

// What a spreadsheet may take for a formula has a quote in front, in a file and in a text that is copied.
function formulaCases(suite) {
  const cells = ['-1+1', '=1', '+1', '@a', '\t=1', '-cmd', '-', '-5', '-0.25', '5', 'a-b', '=a,b'];
  suite.same('formulas: CSV', linesOfTable([cells], true), `'-1+1,'=1,'+1,'@a,'\t=1,'-cmd,'-,-5,-0.25,5,a-b,"'=a,b"\r\n`);
  suite.same('formulas: copied', linesOfTable([cells], false),
    ["'-1+1", "'=1", "'+1", "'@a", "' =1", "'-cmd", "'-", '-5', '-0.25', '5', 'a-b', "'=a,b"].join('\t') + '\n');
}

// What is wrong with a report, with its line.
async function faultOf(text) {
  const found = await readText(text).then(() => null, (fault) => fault);
  return found === null ? 'nothing' : `${found.line}: ${found.message}`;
}

// Movements of a wallet that its market's entries do not tell.
async function moveCases(suite) {
  const report = stored('examples/two_traders.report');
  const lines = report.split('\n');
  const at = lines.findIndex((line) => line === 'move m 0 12 debit 400 1000');
  const changed = (line) => [...lines.slice(0, at), line, ...lines.slice(at + 1)].join('\n');
  suite.same('moves: the report as it is', await faultOf(report), 'nothing');
  for (const [line, why] of [
    ['move m 0 12 debit 401 1000', 'says of the row'], ['move m 0 12 credit 400 1000', 'says of the row'], ['move m 0 12 debit 400 1001', 'says of the row'],
    ['move m 1 12 debit 400 1000', 'says of the row'], ['move m 0 13 debit 400 1000', 'says of the row'], ['move n 0 12 debit 400 1000', 'no market'],
    ['move m 0 99 debit 400 1000', 'no entry of that row'], ['move m 0 16 probe 0 600', ''],
  ]) {
    const found = await faultOf(changed(line));
    const place = line.includes(' 16 ') ? at + 2 : at + 1;
    suite.holds(`moves: ${line}`, found.startsWith(`${place}: The movement of ann_coin`) && found.includes(why), found);
  }
  const less = report.replace('wallet ann_coin 2\nmove m 0 12 debit 400 1000\n', 'wallet ann_coin 1\n');
  suite.holds('moves: one is missing', (await faultOf(less)).startsWith('5: A wallet that this line names has no movement'), await faultOf(less));
  suite.holds('moves: a lane above 15', (await faultOf(report.replaceAll('entry 0 10', 'entry 16 10'))).startsWith('3: '), '');
}

// A row's number that is no exact plain number is shown as it stands.
async function rowCases(suite) {
  const report = stored('examples/two_traders.report').replace(/^(entry 1) 18 /m, `$1 ${LARGE_ROW} `);
  const page = await suite.browser.page(1280, 900);
  await page.open(makePage(suite.folder, report), `journal/m?row=${LARGE_ROW}`);
  suite.same('a large row: it is chosen', await page.run(() => document.querySelector('[aria-selected] .value').textContent.replace(/,/g, '')), LARGE_ROW);
  await page.close();
}

// Opens a file that is made in the page, and answers for how long the page stood still at most, in milliseconds.
function openMade(page, front, piece, times) {
  return page.run(async (begin, repeated, count) => {
    const given = new DataTransfer();
    given.items.add(new File([begin, repeated.repeat(count)], 'odd.csv'));
    let [last, most] = [performance.now(), 0];
    const timer = setInterval(() => {
      most = Math.max(most, performance.now() - last);
      last = performance.now();
    }, 5);
    const field = document.querySelector('#file');
    field.files = given.files;
    field.dispatchEvent(new Event('change'));
    while (document.querySelector('main[data-view="script"], main[data-view="fault"]') === null) await new Promise((resume) => { setTimeout(resume, 10); });
    clearInterval(timer);
    return Math.round(most);
  }, front, piece, times);
}

// Files of quotes and of commas: the page acts meanwhile.
async function stillCases(suite) {
  const file = makePage(suite.folder, '');
  for (const [name, front, piece, times] of [['commas', 'do', ',', 20000000], ['quotes', 'do,', '"', 20000000], ['empty quotes', 'do', ',""', 6000000]]) {
    const page = await suite.browser.page(1280, 900);
    await page.open(file, 'script');
    const most = await openMade(page, front, piece, times);
    console.log(`page: a file of ${name} kept the page for ${most} ms at once`);
    suite.holds(`a file of ${name}: the page acts meanwhile`, most < MOST_STILL, `${most} ms`);
    await page.close();
  }
}

// Reading that takes long has a bar and a button that stops it; then what stood there before stands there again.
async function stopCases(suite) {
  const page = await suite.browser.page(1280, 900);
  await page.open(makePage(suite.folder, stored('examples/two_traders.report')), 'vaults');
  const before = await page.text('main');
  const found = await page.run(async (piece, times) => {
    const given = new DataTransfer();
    given.items.add(new File([piece.repeat(times)], 'odd.csv'));
    const field = document.querySelector('#file');
    field.files = given.files;
    field.dispatchEvent(new Event('change'));
    const button = () => document.querySelector('[data-key="stop"]');
    while (button() === null) await new Promise((resume) => { setTimeout(resume, 1); });
    const bars = document.querySelectorAll('progress[aria-label]').length;
    button().click();
    while (document.querySelector('main[data-view]') === null) await new Promise((resume) => { setTimeout(resume, 5); });
    return { bars, notice: document.querySelector('[data-name="notice"]').textContent };
  }, 'do,0,m,ann,amy,-,-,-,-,init\n', 500000);
  suite.same('stopped: it is told', found, { bars: 1, notice: 'Reading odd.csv was stopped.' });
  suite.same('stopped: what stood there', await page.text('main'), before);
  await page.close();
}

/** Odd and lying texts. */
export async function hostileCases(suite) {
  formulaCases(suite);
  await moveCases(suite);
  await wordCases(suite);
  await rowCases(suite);
  await stopCases(suite);
  await stillCases(suite);
}
