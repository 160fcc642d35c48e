// The script beside the report: who did what with which account, filters by signer and instruction, a script of another report.

import { makePage, stored } from './texts.mjs';

// Rows of examples in words, with native amounts.
const SENTENCES = {
  two_traders: [
    [10, 'ann opens amy'],
    [12, 'ann sells 4 at 50, with amy'],
    [13, 'bob buys 3 at 60, at most 2,000 including fees, immediate or cancel, with ben'],
    [15, 'ann cranks up to 10 events for amy, ben'],
    [17, 'bob settles ben'],
    [18, 'bob hands in data that is no instruction'],
  ],
  market_maker: [
    [12, 'max buys 2 at 48, at most 1,000 including fees, post only, with maker'],
    [20, 'tia sells 1 at 48, immediate or cancel, with taker'],
    [24, 'max cancels client ids 1, 2, 3, 4, 5, 6, 7 of maker'],
    [28, 'max closes maker'],
  ],
};

// What a row of the journal says was asked.
async function askedIn(page, row) {
  await page.go(`#journal/m?row=${row}`);
  return page.run(() => document.querySelector('[aria-selected] .asked').textContent);
}

// Each row says who did what with which account.
async function checkSentences(suite, page) {
  for (const [name, rows] of Object.entries(SENTENCES)) {
    await page.open(makePage(suite.folder, stored(`examples/${name}.report`), { 'script.csv': stored(`examples/${name}.csv`) }), 'journal/m');
    await page.choose('Amounts', 'native');
    for (const [row, sentence] of rows) suite.same(`${name}: row ${row}`, await askedIn(page, row), sentence);
  }
  await page.go('#journal/m?row=12');
  suite.holds('the details tell the wallets by role', (await page.text('.details')).includes('Wallet for pcmax_usd'));
}

// Filters by what was asked and who signed give as many entries as the script has such rows.
async function checkFilters(suite, page) {
  const script = stored('examples/deep_book.csv');
  await page.open(makePage(suite.folder, stored('examples/deep_book.report'), { 'script.csv': script }), 'journal/m');
  const rows = script.split('\n').filter((line) => line.startsWith('do,')).map((line) => line.split(','));
  const heading = () => page.text('h2');
  for (const [words, count] of [
    ['signer=bob', rows.filter((fields) => fields[3] === 'bob').length],
    ['asked=new', rows.filter((fields) => fields[9].startsWith('new ')).length],
    ['signer=cat&asked=settle', rows.filter((fields) => fields[3] === 'cat' && fields[9] === 'settle').length],
    ['account=cal', rows.filter((fields) => fields[4].split(' ')[0] === 'cal').length],
  ]) {
    await page.go(`#journal/m?${words}`);
    suite.same(`journal of ${words}`, (await heading()).split(' ')[0], String(count));
  }
  await page.go('#script');
  suite.same('script: its rows', await heading(), '39 rows of 39 rows');
}

// A script of another report is told and not used; a script that was refused has its row shown.
async function checkOther(suite, page) {
  await page.open(makePage(suite.folder, stored('examples/deep_book.report'), { 'other.csv': stored('examples/two_traders.csv') }), 'journal/m');
  suite.holds('another script is told', (await page.text('.faults')).startsWith('other.csv is not the script of this report: '));
  suite.same('another script is not used', await page.text('.asked'), null);
  const refused = stored('tests/cases/scripts/fault_6_unknown_wallet.in');
  await page.open(makePage(suite.folder, stored('tests/cases/scripts/fault_6_unknown_wallet.out'), { 'script.csv': refused }));
  suite.holds('a refused script: the text of its row', (await page.text('main')).includes(refused.split('\n')[10]));
  await page.go('#script');
  suite.same('a refused script: its row is chosen', await page.run(() => document.querySelector('[aria-selected] .value').textContent), '11');
}

// Two files that are dropped at once, and one that is dropped later.
async function checkDrop(suite, page) {
  await page.open(makePage(suite.folder, ''));
  const drop = (texts) => page.run((files) => {
    const transfer = new DataTransfer();
    for (const [name, text] of Object.entries(files)) transfer.items.add(new File([text], name));
    document.dispatchEvent(new DragEvent('drop', { dataTransfer: transfer, bubbles: true, cancelable: true }));
  }, texts);
  const example = (kind) => stored(`examples/two_traders.${kind}`);
  await drop({ 'two.csv': example('csv'), 'two.report': example('report') });
  await page.settle();
  await page.go('#journal/m?row=13');
  suite.holds('two files dropped: the row has its words', (await page.text('[aria-selected] .asked')).startsWith('bob buys '));
  await drop({ 'answer.txt': 'audit ok 1 4\n' });
  await page.settle();
  suite.holds('one more file dropped: the others stay', (await page.text('.file')).includes('two.csv'));
}

/** The script beside the report. */
export async function scriptCases(suite) {
  const page = await suite.browser.page(1280, 1400);
  await checkSentences(suite, page);
  await checkFilters(suite, page);
  await checkOther(suite, page);
  await checkDrop(suite, page);
  await page.close();
}
