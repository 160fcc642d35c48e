// What commands answer where they write no report: shown whole, with the sentence and the remedy, and links into the dump beside it.

import { makePage, stored } from './texts.mjs';

// Texts of one line, what the page says of each, and what it tells of mending it.
const LINES = [
  ['script refused row 29: 3 FieldCount', 'The script is refused at row 29: there are more or fewer fields, or words, than the form has.', 'Give each field and each word'],
  ['script refused row 2: 9 SetupRefused 4', 'The script is refused at row 2: the two mints of the market are one.', 'Give a market two mints.'],
  ['script refused row 7: 6 UnknownLabel', 'The script is refused at row 7: it names a mint, market or wallet', 'Declare mints before wallets'],
  ['dump refused row 9: 1 Grammar - 0 0 0', 'The dump is refused at row 9: the row has none of the forms', 'none told'],
  ['dump refused row 12: 10 Token bob_coin 108 128 1', 'The dump is refused at row 12: a byte of a token account or mint is not what it must be', 'bob_coin'],
  ['migrate refused m0 bids 9 5', 'The accounts do not fit the sizes to migrate to: the bids of m0 need more room.', 'Ask for more nodes'],
  ['audit ok 1 18', 'The audit found nothing: 1 market, 18 wallets.', ''],
  ['read failed', 'The input could not be read.', ''],
  ['input too long', 'More bytes were given than are read: 67,108,864, or 2^40 within the widest limits.', ''],
  ['no memory', 'Memory was wanting.', ''],
  ['usage: dex replay, run, audit, dump, worth, make NUMBER ROWS, bulk NUMBER ROWS, migrate NODES EVENTS or batch WORKERS', 'The words of the command are none', ''],
];

// Each answer of one line.
async function checkLines(suite, page) {
  for (const [line, sentence, remedy] of LINES) {
    await page.open(makePage(suite.folder, `${line}\n`));
    suite.same(`${line}: the view`, await page.run(() => document.querySelector('main').dataset.view), 'answer');
    suite.same(`${line}: the sentence`, (await page.text('[data-name="answer"]')).slice(0, sentence.length), sentence);
    suite.holds(`${line}: how to mend it`, (await page.text('main')).includes(remedy));
  }
}

// The summary of bulk: its counts and its two markets.
async function checkBulk(suite, page) {
  const text = 'bulk 7 100\naccepted 90\nrefused 26\nmarket m0 bids 3 asks 4 events 5 coin 6 pc 7 fees 8\nmarket m1 bids 9 asks 10 events 11 coin 12 pc 13 fees 14\n';
  await page.open(makePage(suite.folder, text));
  const numbers = await page.run(() => [...document.querySelectorAll('main data')].map((node) => node.value).join(' '));
  suite.same('bulk: its numbers', numbers, '90 26 3 4 5 6 7 8 9 10 11 12 13 14');
}

// The findings of an audit beside their dump: each place is a link to where it is.
async function checkFindings(suite, page) {
  const [dump, answer] = ['in', 'out'].map((kind) => stored(`tests/cases/audit/0452.${kind}`));
  await page.open(makePage(suite.folder, dump, { 'answer.txt': answer }));
  const lines = answer.split('\n').filter((line) => line.startsWith('finding'));
  const links = await page.run(() => [...document.querySelectorAll('.rows .row')].map((row) => row.querySelectorAll('.cell')[3].querySelector('a').hash));
  suite.same('findings: one row each', links.length, lines.length);
  for (const [at, hash] of links.entries()) {
    const [, kind, , place] = lines[at].split(' ');
    await page.go(hash);
    const chosen = await page.run(() => document.querySelector('[aria-selected]').textContent);
    if (kind === '4') suite.holds(`${lines[at]}: its event is chosen`, chosen.startsWith(`Place${place}`), chosen);
    if (kind === '3') suite.holds(`${lines[at]}: its slot is chosen`, chosen.includes(`orders[${place}]`), chosen);
    if (kind === '8') suite.holds(`${lines[at]}: its word is chosen`, chosen.includes('pc_deposits_total'), chosen);
    if (kind === '9') suite.holds(`${lines[at]}: its amount is chosen`, chosen.includes('Fieldamount'), chosen);
  }
  await page.open(makePage(suite.folder, answer));
  suite.same('findings alone: one row each', await page.run(() => document.querySelectorAll('.rows .row').length), lines.length);
}

// A dump that cannot be read beside the answer that refuses it: the answer is shown, and above it the line at fault.
async function checkRefusedDump(suite, page) {
  const [dump, answer] = ['in', 'out'].map((kind) => stored(`tests/cases/audit/0446.${kind}`));
  await page.open(makePage(suite.folder, dump, { 'answer.txt': answer }));
  suite.holds('a refused dump: the answer', (await page.text('[data-name="answer"]')).startsWith('The dump is refused at row 15: the flags are not the account’s.'));
  suite.holds('a refused dump: the line at fault', (await page.text('[data-name="fault"]')).includes('Line 15: The account ann_0: its flags are 4'));
}

/** The answers of commands. */
export async function answerCases(suite) {
  const page = await suite.browser.page(1280, 1600);
  await checkLines(suite, page);
  await checkBulk(suite, page);
  await checkFindings(suite, page);
  await checkRefusedDump(suite, page);
  await page.close();
}
