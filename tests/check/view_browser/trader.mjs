// What a trader asks: prices and sizes in tokens and native, the tape, last price, volume, spread, charts with values under the pointer, the
// life of an order.

import { makePage, stored } from './texts.mjs';

// The example's market has mints of 6 decimals, a coin lot of 100 and a pc lot of 10: a lot is 0.0001 coin, price 1 is 0.1 usd per coin.
async function checkBook(suite, page) {
  await page.go('#book/m');
  const value = (name) => page.run((words) => document.querySelector(`[data-name="${words}"]`).textContent, name);
  const native = (name) => page.run((words) => document.querySelector(`[data-name="${words}"]`).value, name);
  suite.same('best bid in tokens', await value('best bid'), '4.9');
  suite.same('best ask in tokens', await value('best ask'), '5.2');
  suite.same('spread', [await value('spread'), await native('spread'), await value('basis points')], ['0.3', '3', ' (594.1 basis points)']);
  suite.same('last price', await value('last price'), '4.8');
  suite.same('the native price under the pointer', await page.run(() => document.querySelector('[data-name="best bid"]').parentNode.title), '49 pc lots per coin lot');
  await page.choose('Amounts', 'native');
  suite.same('best bid, native', await value('best bid'), '49');
  suite.same('last price, native', await value('last price'), '48');
  await page.choose('Amounts', 'tokens');
}

// The tape has a row for each entry that filled something, and the volume is their sum.
async function checkTape(suite, page, report) {
  await page.go('#trades/m');
  const filled = report.split('\n').filter((line) => /^entry [0-9]+ [0-9]+ ok (order|take) /.test(line)).map((line) => line.split(' '))
    .map((words) => (words[4] === 'order' ? { row: words[2], lots: words[7], pc: words[8], fee: words[9] } : { row: words[2], lots: words[5], pc: words[6], fee: words[7] }))
    .filter(({ lots }) => lots !== '0');
  const rows = await page.run(() => [...document.querySelectorAll('[data-row^="trade "]')]
    .map((row) => [row.dataset.row.split(' ')[1], ...[...row.querySelectorAll('data')].map((node) => node.value)]));
  suite.same('tape: row, size, quote and fee, the last first', rows, filled.reverse().map(({ row, lots, pc, fee }) => [row, lots, pc, fee]));
  const sum = (name) => filled.reduce((total, one) => total + BigInt(one[name]), 0n).toString();
  for (const [name, part] of [['volume lots', 'lots'], ['volume pc', 'pc'], ['volume fees', 'fee']]) {
    suite.same(`tape: ${name}`, await page.run((words) => document.querySelector(`[data-name="${words}"]`).value, name), sum(part));
  }
  suite.same('chart: a dot for each trade', await page.run(() => document.querySelectorAll('[data-name="price chart"] circle').length), filled.length);
}

// Values under the pointer, of both charts.
async function checkPointer(suite, page) {
  await page.go('#book/m');
  await page.point('[data-name="depth chart"]', false);
  const told = await page.texts('[data-name="pointed"]');
  suite.holds('depth: a level under the pointer', /^(bid|ask) [0-9.]+: [0-9.]+ coin in [0-9]+ orders?, [0-9.]+ up to here$/.test(told[0]), told[0]);
  await page.point('[data-name="price chart"]', false);
  const [, price] = await page.texts('[data-name="pointed"]');
  suite.holds('prices: a trade under the pointer', /^row [0-9]+: the taker (buys|sells) [0-9.]+ coin at [0-9.]+$/.test(price), price);
}

// The steps of an order's life.
async function steps(page, fragment) {
  await page.go(fragment);
  return page.texts('[data-name="step"]');
}

// The lives of some orders, by the rows of the script.
async function checkLives(suite, page) {
  const id = (price, low) => String((BigInt(price) << 64n) + low);
  const bid = (price, sequence) => id(price, (1n << 64n) - 1n - sequence);
  suite.same('an order that was filled', await steps(page, `#orders/m?id=${id(51, 9n)}`), ['row 25 placed: 0.001 coin at 5.1 by bob', 'row 25 rests with 0.001 coin',
    'row 28 filled as maker: 0.001 coin at 5.1, rebate 0.000001 usd, by the bid at 5.2, sequence number 12 of cal']);
  suite.same('a taker', (await steps(page, `#orders/m?id=${bid(52, 12n)}`)).slice(0, 2), ['row 28 placed: 0.0025 coin at 5.2 by cat',
    'row 28 filled as taker: 0.0025 coin at 5.16 on average, fee 0.000029 usd0.001 coin at 5.1 of the ask at 5.1, sequence number 9 of ben'
    + '0.0012 coin at 5.2 of the ask at 5.2, sequence number 3 of amy0.0003 coin at 5.2 of the ask at 5.2, sequence number 10 of ben']);
  const cancelled = await steps(page, `#orders/m?id=${bid(45, 2n)}`);
  suite.holds('an order that was cancelled', cancelled.some((step) => /^row [0-9]+ cancelled: /.test(step)), cancelled.join('; '));
  suite.same('orders that rest', (await page.run(() => { window.location.hash = '#orders/m?state=rests'; })) === undefined, true);
  await page.settle();
  suite.same('as many orders rest as the book has', await page.text('section:last-of-type h2'), '8 orders of 15 orders');
}

// A day of a market maker: an order that leaves a full side, own orders that meet, outs that a crank consumes.
async function checkDay(suite, page) {
  await page.open(makePage(suite.folder, stored('examples/market_maker.report'), { 'script.csv': stored('examples/market_maker.csv') }), 'orders/m');
  suite.same('the replay leads to the dump', await page.text('[data-name="shortfall"]'), null);
  const ids = await page.run(() => [...document.querySelectorAll('[data-row^="life "]')].map((row) => row.dataset.row.split(' ')[1]));
  const lives = [];
  for (const one of ids) lives.push((await steps(page, `#orders/m?id=${one}`)).join('; '));
  suite.holds('each order ended by a crank', lives.every((life) => /out: its slot is free$/.test(life)), lives.filter((life) => !/free$/.test(life)).join(' | '));
  await page.open(makePage(suite.folder, stored('examples/market_maker.report')), 'orders/m');
  suite.holds('without the script it is told what is not known', (await page.text('[data-name="shortfall"]')).startsWith('Without the script'));
}

/** What a trader asks. */
export async function traderCases(suite) {
  const page = await suite.browser.page(1280, 1400);
  const report = stored('examples/deep_book.report');
  await page.open(makePage(suite.folder, report, { 'script.csv': stored('examples/deep_book.csv') }));
  await checkBook(suite, page);
  await checkTape(suite, page, report);
  await checkPointer(suite, page);
  await checkLives(suite, page);
  await checkDay(suite, page);
  await page.close();
}
