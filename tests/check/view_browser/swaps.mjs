// Swaps: legs beside one another in journals, trades, wallets and owners, as one in a table and in the script; filters, CSV, faults.

import { makePage, stored } from './texts.mjs';

const REPORT = stored('tests/data/swaps.report');
const SCRIPT = stored('tests/data/swaps.csv');

// Of swaps, by market and row: what was asked, the reply, what happened, and what the details tell of the other leg; amounts are native.
const LEGS = [
  ['m', 17, 'bob swaps with n, first leg: buys 1 at 60, at most 700 including fees, at least 1', 'Take', 'The take filled 1 lot for 500 50 pc lots, fee 2 .',
    'on n, Take: The take filled 1 lot for 700'],
  ['m', 18, 'bob swaps with n, first leg: buys 3 at 60, at most 2,000 including fees, at least 3', 'Held back',
    'It did nothing, since the other leg, on n, was refused.', 'on n, 22 InsufficientFunds: The deposit is 300'],
  ['n', 18, 'bob swaps with m, second leg: sells 3 at 65', '22 InsufficientFunds', 'The deposit is 300', 'on m, Held back: It did nothing'],
  ['n', 19, 'bob swaps with m, first leg: sells 1 at 65', 'Held back', 'It did nothing, since the other leg, on m, was refused.', 'on m, 20 BelowMinimum: '],
  ['n', 20, 'bob swaps with m, second leg: data that is no instruction', '1 BadData', 'The data is no instruction', 'on m, 20 BelowMinimum: '],
  ['n', 22, 'bob swaps with m, first leg: sells 1 at 80', 'Take', 'The take filled nothing.', 'on m, Take: The take filled 2 lots'],
];

// Texts of the chosen row's cells, and of what stands below.
async function chosen(page) {
  return page.run(() => {
    const cells = [...document.querySelectorAll('[aria-selected] .value')].map((node) => node.textContent.trim());
    const other = [...document.querySelectorAll('.details dt')].find((node) => node.textContent === 'The swap’s other leg');
    return { cells, other: other === undefined ? '' : other.nextSibling.textContent };
  });
}

// Each leg in its market's journal.
async function checkJournals(suite, page) {
  await page.open(makePage(suite.folder, REPORT, { 'script.csv': SCRIPT }), 'journal/m');
  await page.choose('Amounts', 'native');
  for (const [market, row, asked, reply, answer, other] of LEGS) {
    await page.go(`#journal/${market}?row=${row}`);
    const found = await chosen(page);
    suite.same(`row ${row} on ${market}: asked and answered`, found.cells.slice(2, 4), [asked, reply]);
    suite.holds(`row ${row} on ${market}: what happened`, found.cells[4].startsWith(answer.slice(0, 30)), found.cells[4]);
    suite.holds(`row ${row} on ${market}: the other leg`, found.other.startsWith(other), found.other);
  }
  const link = await page.run(() => document.querySelector('[aria-selected] .asked a:nth-of-type(2)').getAttribute('href'));
  suite.same('a leg leads to the other one', link, '#journal/m?row=22');
}

// Filters take both legs.
async function checkFilters(suite, page) {
  for (const [fragment, count] of [
    ['journal/m?swaps=only', 5], ['journal/n?swaps=only', 5], ['journal/m?kind=held', 1], ['journal/n?kind=held', 1], ['journal/n?kind=done', 1],
    ['journal/m?asked=swap', 5], ['journal/n?asked=swap&signer=bob', 5], ['journal/m?account=bob_coin2', 5], ['journal/n?account=bob_coin', 5],
    ['journal/m?account=bob_coin', 6], ['script?asked=swap', 5],
  ]) {
    await page.go(`#${fragment}`);
    suite.same(`#${fragment}: how many`, (await page.text('h2')).split(' ')[0], String(count));
  }
}

// A swap told as one: the overview's table and its CSV, the owner's, the script's row.
async function checkAsOne(suite, page) {
  await page.go('#overview');
  const value = (name) => page.run((words) => document.querySelector(`[data-name="${words}"]`).value, name);
  const told = await Promise.all(['rows', 'accepted', 'refused', 'swaps', 'swaps done'].map(value));
  suite.same('overview: rows, accepted, refused, swaps, and those that acted', told, ['13', '10', '3', '5', '2']);
  const lines = (await page.csv('Swaps', suite.folder)).split('\r\n');
  suite.same('CSV of swaps: its titles', lines[0], 'Row,Lane,Signer,Came out,First leg,Second leg');
  suite.same('CSV of swaps: both legs of one that acted', lines[1], '17,1,bob,acted,"m, Take: The take filled 1 for 500, fee 2.","n, Take: The take filled 1 for 700, fee 2."');
  suite.holds('CSV of swaps: the first leg stands first', lines[3].startsWith('19,1,bob,refused,"n, Held back: '), lines[3]);
  suite.same('CSV of swaps: one line each', lines.length, 7);
  await page.go('#owners/bob');
  suite.same('an owner’s swaps', await page.run(() => document.querySelectorAll('[data-row^="swap "]').length), 5);
  suite.holds('an owner’s takes: legs too', /Takes on m3 rows: 4 for 2,000.*Takes on n1 row: 1 for 700/s.test(await page.text('.facts')));
  await page.go('#owners/ann');
  suite.same('an owner without swaps', await page.run(() => document.querySelectorAll('[data-row^="swap "]').length), 0);
  await page.go('#script?row=18');
  const { cells } = await chosen(page);
  suite.holds('script: both legs in a row', cells[1].startsWith('bob swaps: buys 3 ') && / on m; sells 3 .* on n$/.test(cells[1]), cells[1]);
  suite.same('script: both markets', cells[2], 'm n lane 1');
}

// Trades and wallets' movements tell the other leg.
async function checkElsewhere(suite, page) {
  await page.go('#trades/n?row=17');
  const trade = await chosen(page);
  suite.same('a trade of a swap: by what', trade.cells[6], 'swap');
  suite.holds('a trade of a swap: the other leg', trade.other.startsWith('on m, Take: '), trade.other);
  await page.go('#wallets/bob_usd?row=18');
  const move = await chosen(page);
  suite.holds('a movement of a swap: the other leg', move.other.startsWith('on n, 22 InsufficientFunds: '), move.other);
}

// What a report alone tells.
async function checkAlone(suite, page) {
  await page.open(makePage(suite.folder, REPORT), 'journal/m?row=18');
  const { cells, other } = await chosen(page);
  suite.same('without the script: the reply', cells[2], 'Held back, swap with n');
  suite.holds('without the script: the other leg', other.startsWith('on n, 22 InsufficientFunds: '), other);
  await page.go('#overview');
  suite.same('without the script: one row each', await page.run(() => document.querySelectorAll('[data-row^="swap "]').length), 5);
}

// Reports whose entries do not go together, and a script of other swaps.
async function checkFaults(suite, page) {
  const fault = async (text) => {
    await page.open(makePage(suite.folder, text), 'journal/m');
    return page.text('[data-name="fault"]');
  };
  suite.holds('an entry twice in a journal', (await fault(REPORT.replace('entry 1 21 ', 'entry 1 20 ').replace('report 13', 'report 12'))).includes('Row 20 has an entry above already'));
  suite.holds('legs of two lanes', (await fault(REPORT.replace('entry 1 18 refused', 'entry 2 18 refused'))).includes('Line 17: Row 18 has an entry above already'));
  suite.holds('too few rows', (await fault(REPORT.replace('report 13', 'report 12'))).includes('The report tells of 12 rows'));
  const other = SCRIPT.replace(/^swap,1,bob,m,[^\n]*\n/m, 'do,1,m,bob,-,-,-,-,-,match 1\n');
  await page.open(makePage(suite.folder, REPORT, { 'script.csv': other }), 'journal/m');
  suite.holds('a script with fewer swaps', (await page.text('.faults')).includes('it has 4 swaps, and the report tells of 5'));
}

// What the page says of refused swap rows, by what the row has.
async function checkRefused(suite, page) {
  const order = 'AAoAAAAAAAAAPAAAAAAAAAABAAAAAAAAALwCAAAAAAAAAAAAAAAAAAABAAAAAAAAAAoA';
  const row = SCRIPT.split('\n')[16];
  for (const [what, change] of [
    ['both legs are on m', (fields) => { fields[7] = 'm'; }],
    ['the wallet bob_usd is named twice', (fields) => { fields[9] = 'bob_usd'; }],
    ['the data of its second leg is NewOrderV3', (fields) => { fields[10] = order; }],
  ]) {
    const fields = row.split(',');
    change(fields);
    await page.open(makePage(suite.folder, 'script refused row 17: 10 BadSwap\n', { 'script.csv': SCRIPT.replace(row, fields.join(',')) }));
    suite.same(`BadSwap: ${what}`, await page.text('[data-name="answer"]'), `The script is refused at row 17: ${what}.`);
    suite.holds(`BadSwap: ${what}: how to mend it`, (await page.text('main')).includes('Give a swap two markets and name no wallet twice'));
  }
  await page.open(makePage(suite.folder, 'script refused row 17: 11 NoBatch\n', { 'script.csv': SCRIPT }));
  suite.holds('NoBatch: how to mend it', (await page.text('main')).includes('Let a script with swap rows act by replay or run'));
}

/** Swaps. */
export async function swapCases(suite) {
  const page = await suite.browser.page(1280, 1400);
  await checkJournals(suite, page);
  await checkFilters(suite, page);
  await checkAsOne(suite, page);
  await checkElsewhere(suite, page);
  await checkAlone(suite, page);
  await checkFaults(suite, page);
  await checkRefused(suite, page);
  await page.close();
}
