// What a market maker asks: a person over all markets, what settling and a crank would pay, fees and rebates, worth.

import { makePage, stored } from './texts.mjs';

// What ./dex worth writes for the deep book.
const WORTH = 'worth 1\ntrader m amy 0 482\ntrader m ben -1300 6661\ntrader m cal 1300 -7182\nend\n';
const NAMES = { ann: 'amy', bob: 'ben', cat: 'cal' };

// The number that a page shows by a name.
function valueOf(page, name) {
  return page.run((words) => { const node = document.querySelector(`[data-name="${words}"]`); return node === null ? null : node.value; }, name);
}

// The free amounts in the bytes of an account.
function freeIn(report, account) {
  const line = report.split('\n').find((one) => one.startsWith(`orders,m,${account},`));
  const bytes = Buffer.from(line.split(',')[3], 'base64');
  return [bytes.readBigUInt64LE(77), bytes.readBigUInt64LE(93)].map(String);
}

// What the lines of a report say of an account's rows: fees of its orders, deposits, what was settled.
function sumsIn(report, script, account) {
  const rows = new Set(script.split('\n').map((line, at) => [line.split(','), at + 1]).filter(([fields]) => (fields[4] || '').split(' ')[0] === account).map(([, row]) => row));
  const sums = { fees: 0n, depositedCoin: 0n, depositedPc: 0n, settledCoin: 0n, settledPc: 0n };
  for (const words of report.split('\n').filter((line) => line.startsWith('entry ')).map((line) => line.split(' '))) {
    if (!rows.has(Number(words[2])) || words[3] !== 'ok') continue;
    if (words[4] === 'settled') {
      sums.settledCoin += BigInt(words[5]);
      sums.settledPc += BigInt(words[6]);
    }
    if (words[4] !== 'order') continue;
    sums.fees += BigInt(words[9]);
    for (let at = 11; at < words.length; at += 4) {
      if (words[at + 1] === 'debit') sums[words[at].endsWith('_coin') ? 'depositedCoin' : 'depositedPc'] += BigInt(words[at + 2]);
    }
  }
  return Object.fromEntries(Object.entries(sums).map(([name, sum]) => [name, String(sum)]));
}

// Each owner's page.
async function checkOwners(suite, page, report, script) {
  for (const [person, account] of Object.entries(NAMES)) {
    await page.go(`#owners/${person}`);
    const value = (name) => valueOf(page, `m ${account} ${name}`);
    suite.same(`${person}: free`, [await value('free coin'), await value('free pc')], freeIn(report, account));
    const sums = sumsIn(report, script, account);
    suite.same(`${person}: fees`, await value('fees pc'), sums.fees);
    suite.same(`${person}: deposits`, [await value('deposited coin'), await value('deposited pc')], [sums.depositedCoin, sums.depositedPc]);
    suite.same(`${person}: settled`, [await value('settled coin'), await value('settled pc')], [sums.settledCoin, sums.settledPc]);
    const told = WORTH.split('\n').find((line) => line.startsWith(`trader m ${account} `)).split(' ').slice(3);
    suite.same(`${person}: worth by the page`, [await value('worth coin'), await value('worth pc')], told);
    suite.same(`${person}: worth by the command`, [await value('told worth coin'), await value('told worth pc')], told);
    const [free, owed, after] = [await value('free pc'), await value('owed pc'), await value('after pc')].map(BigInt);
    suite.same(`${person}: settling behind a crank`, String(after), String(free + owed));
    const orders = await page.run(() => document.querySelectorAll('[data-row^="open "]').length);
    suite.same(`${person}: open orders`, orders, { ann: 3, bob: 4, cat: 1 }[person]);
  }
  // Ben's ask of 51 sold 10 lots for 5100 and his ask of 52 sold 3 for 1560: rebates of 3 hundredths of a percent, rounded down: 1 and 0.
  await page.go('#owners/bob');
  suite.same('bob: rebates', await valueOf(page, 'm ben rebates pc'), '1');
  // His two fills, and what his cancelled bid of 40 lots at 44 locked.
  suite.same('bob: owed by a crank', await valueOf(page, 'm ben owed pc'), String(5101 + 1560 + 44 * 40 * 10));
  await page.go('#owners/nope');
  suite.holds('an owner who is not there', (await page.texts('[data-name="notice"]')).join('').startsWith('There is no owner nope'));
}

// The table of worth: beside report and script, with another sum, alone, and of other accounts.
async function checkWorth(suite, page, report, script) {
  await page.go('#worth');
  suite.same('worth: both sums agree', await page.text('[data-name="worth"]'), 'The page’s own sums of all accounts are what ./dex worth wrote.');
  const other = WORTH.replace('6661', '6662');
  await page.open(makePage(suite.folder, report, { 'script.csv': script, 'worth.txt': other }), 'worth');
  suite.same('worth: another sum is told', await page.text('[data-name="worth"]'), 'Of 1 account the page’s own sum is another than what ./dex worth wrote.');
  await page.open(makePage(suite.folder, WORTH));
  suite.same('worth alone: its view', await page.run(() => document.querySelector('main').dataset.view), 'worth');
  suite.same('worth alone: its numbers', await page.run(() => [...document.querySelectorAll('.rows data')].map((node) => node.value).join(' ')), '0 482 -1300 6661 1300 -7182');
  await page.open(makePage(suite.folder, report, { 'worth.txt': WORTH.replace('m cal', 'm dan') }));
  suite.holds('worth of other accounts is told', (await page.text('.faults')).startsWith('worth.txt is not the worth of these accounts: here is no account dan'));
  await page.open(makePage(suite.folder, 'worth 1\ntrader m amy 1\nend\n'));
  suite.holds('worth with a short line', (await page.text('[data-name="fault"]')).includes('Line 2: A line is wanted that reads trader MARKET ACCOUNT COIN PC'));
}

/** What a market maker asks. */
export async function makerCases(suite) {
  const page = await suite.browser.page(1280, 1400);
  const [report, script] = ['report', 'csv'].map((kind) => stored(`examples/deep_book.${kind}`));
  await page.open(makePage(suite.folder, report, { 'script.csv': script, 'worth.txt': WORTH }));
  await checkOwners(suite, page, report, script);
  await checkWorth(suite, page, report, script);
  await page.close();
}
