// What an auditor asks: addresses in base58, parts of markets by name, copies and CSV of tables, sorting, an overview, paper; and the words of
// the field.

import { makePage, stored, withHexAddresses, labelsOf } from './texts.mjs';

// Addresses and their base58, by another way: repeated division of the digits.
function base58(hex) {
  const letters = '123456789ABCDEFGHJKLMNPQRSTUVWXYZabcdefghijkmnopqrstuvwxyz';
  const digits = [];
  for (const byte of Buffer.from(hex, 'hex')) {
    let carry = byte;
    for (let at = 0; at < digits.length; at += 1) {
      carry += digits[at] * 256;
      digits[at] = carry % 58;
      carry = Math.floor(carry / 58);
    }
    for (; carry > 0; carry = Math.floor(carry / 58)) digits.push(carry % 58);
  }
  const zeros = /^(00)*/.exec(hex)[0].length / 2;
  return '1'.repeat(zeros) + digits.reverse().map((digit) => letters[digit]).join('');
}

// Base58 beside hexadecimal digits, and parts of markets by their names.
async function checkAddresses(suite, page) {
  for (const view of ['#bytes/amy', '#book/m', '#wallets/ann_usd', '#owners/ann']) {
    await page.go(view);
    const [hex, text] = [await page.text('[data-name="hexadecimal"]'), await page.text('[data-name="base58"]')];
    suite.same(`${view}: base58`, text, base58(hex.slice(2)));
  }
  await page.go('#bytes/m');
  const names = await page.run(() => [...document.querySelectorAll('.rows .address')].map((node) => node.textContent));
  suite.same('parts of the market by name', names, ['m', 'coin', 'usd', 'm’s coin vault', 'm’s pc vault', 'm’s request queue', 'm’s event queue', 'm’s bids', 'm’s asks']);
  await page.go(`#bytes/0x6d${'0'.repeat(60)}01`);
  suite.holds('the vault owner by name', (await page.texts('.rows .address')).includes('m’s vault owner'));
}

// Sorting by a click on a title: rising, falling, as the rows stood.
async function checkSorting(suite, page) {
  await page.go('#wallets');
  const balances = () => page.run(() => [...document.querySelectorAll('.rows .row')].map((row) => row.querySelector('data').value));
  const stood = await balances();
  const rising = [...stood].sort((one, other) => Number(BigInt(one) - BigInt(other)));
  const title = '.head span:nth-child(4) button';
  await page.point(title);
  suite.same('sorted: rising', await balances(), rising);
  suite.same('sorted: it is told', await page.run(() => document.querySelector('[aria-sort]').getAttribute('aria-sort')), 'ascending');
  await page.point(title);
  suite.same('sorted: falling', await balances(), [...rising].reverse());
  await page.point(title);
  suite.same('sorted: as they stood', await balances(), stood);
  const choose = (way) => page.run((value) => {
    const select = document.querySelector('[aria-label="Sort Wallets"]');
    select.value = value;
    select.dispatchEvent(new Event('change'));
  }, way);
  await choose('3 falling');
  suite.same('sorted by the choice: falling', await balances(), [...rising].reverse());
  await choose('');
  suite.same('sorted by the choice: as they stood', await balances(), stood);
}

// A table as CSV, and as text on the clipboard.
async function checkCopies(suite, page) {
  await page.go('#wallets');
  const found = await page.csv('Wallets', suite.folder);
  const wanted = ['Wallet,Owner,Mint,Balance,Moves'];
  const report = stored('examples/deep_book.report');
  for (const line of report.split('\n').filter((one) => one.startsWith('wallet,'))) {
    const [, name, text] = line.split(',');
    const bytes = Buffer.from(text, 'base64');
    const label = (from) => bytes.subarray(from, bytes.indexOf(0, from)).toString();
    const moves = report.split('\n').find((one) => one.startsWith(`wallet ${name} `)).split(' ')[2];
    wanted.push([name, label(32), label(0), bytes.readBigUInt64LE(64), moves].join(','));
  }
  suite.same('CSV of the wallets', found, `${wanted.join('\r\n')}\r\n`);
  await suite.browser.ask('Browser.grantPermissions', { permissions: ['clipboardReadWrite', 'clipboardSanitizedWrite'] });
  await page.point('[aria-label="Copy Wallets"]');
  suite.same('copy: it is told', await page.text('.tools [role="status"]'), 'copied');
  const copied = await page.run(() => navigator.clipboard.readText()).catch(() => null);
  if (copied !== null) suite.same('copy of the wallets', copied, `${wanted.map((line) => line.replace(/,/g, '\t')).join('\n')}\n`);
}

// The overview: rows, refusals, volume and fees of each market, from the report's lines.
async function checkOverview(suite, page, report) {
  await page.go('#overview');
  const entries = report.split('\n').filter((line) => line.startsWith('entry '));
  const value = (name) => page.run((words) => document.querySelector(`[data-name="${words}"]`).value, name);
  suite.same('overview: rows', await value('rows'), report.split('\n')[0].split(' ')[1]);
  suite.same('overview: refused', await value('refused'), String(entries.filter((line) => line.split(' ')[3] === 'refused').length));
  suite.same('overview: accepted', await value('accepted'), String(entries.filter((line) => line.split(' ')[3] === 'ok').length));
  const fees = entries.map((line) => line.split(' ')).filter((words) => words[4] === 'order').reduce((sum, words) => sum + BigInt(words[9]), 0n);
  suite.same('overview: fees', await value('fees of m'), String(fees));
  const counts = await page.run(() => [...document.querySelectorAll('[data-row^="reply "]')].reduce((sum, row) => sum + Number(row.querySelector('data').value), 0));
  suite.same('overview: replies', counts, entries.length);
}

// On paper a table has all its rows, and nothing to press.
async function checkPaper(suite, page) {
  await page.open(makePage(suite.folder, stored('examples/deep_book.report')), 'bytes/amy');
  const rows = () => page.run(() => document.querySelectorAll('.rows .row').length);
  suite.holds('on screen: some rows', await rows() < 40);
  await page.ask('Emulation.setEmulatedMedia', { media: 'print' });
  await page.run(() => window.dispatchEvent(new Event('beforeprint')));
  suite.same('on paper: all rows', await rows(), 268);
  const shown = await page.run(() => ['.bar', 'nav', '.tools', '.keys'].filter((words) => getComputedStyle(document.querySelector(words)).display !== 'none'));
  suite.same('on paper: nothing to press', shown, []);
  await page.run(() => window.dispatchEvent(new Event('afterprint')));
  await page.ask('Emulation.setEmulatedMedia', { media: '' });
  const { data } = await page.ask('Page.printToPDF', { printBackground: true });
  const pages = (Buffer.from(data, 'base64').toString('latin1').match(/\/Type *\/Page\b/g) || []).length;
  suite.holds('printed: more than three pages', pages > 3, String(pages));
}

// The words of the field, and probes that are hidden.
async function checkWords(suite, page) {
  await page.open(makePage(suite.folder, stored('examples/deep_book.report')), 'vaults/m');
  const texts = [];
  const views = await page.run(() => [...document.querySelectorAll('nav a')].map((link) => link.getAttribute('href')));
  for (const view of [...views, '#journal/m?refusal=22']) {
    await page.go(view);
    texts.push(await page.run(() => document.body.innerText));
  }
  const all = texts.join('\n');
  for (const word of ['coin_deposits_total', 'pc_deposits_total', 'Sequence number', 'unchanged', 'short by']) suite.holds(`the word ${word} stands`, all.includes(word));
  for (const word of [/\bage\b/i, /\bSeq\b/, /looked at/, /are wanting/, /below a/, /word of .* deposits/]) suite.holds(`no ${word}`, !word.test(all), (word.exec(all) || [''])[0]);
  await page.choose('Amounts', 'native');
  await page.go('#vaults/m');
  suite.holds('native: < 1 pc lot', (await page.text('main')).includes('< 1 pc lot'));
  await page.go('#wallets/ann_usd');
  const moves = await page.run(() => document.querySelectorAll('[data-row^="move "]').length);
  await page.point('[data-key="box Hide probes"]');
  const left = await page.run(() => [...document.querySelectorAll('[data-row^="move "]')].map((row) => row.className));
  suite.holds('probes of a wallet are hidden', left.length < moves && left.every((style) => !style.includes('probe')), `${left.length} of ${moves}`);
  suite.same('the box has the focus', await page.run(() => document.activeElement.dataset.key), 'box Hide probes');
  await page.go('#journal/m?probes=hidden');
  suite.same('probes of the journal are hidden', await page.run(() => document.querySelectorAll('.rows .move.probe').length), 0);
}

/** What an auditor asks. */
export async function auditorCases(suite) {
  const page = await suite.browser.page(1280, 1400);
  const report = stored('examples/deep_book.report');
  await page.open(makePage(suite.folder, report, { 'script.csv': stored('examples/deep_book.csv') }));
  await checkAddresses(suite, page);
  await checkSorting(suite, page);
  await checkCopies(suite, page);
  await checkOverview(suite, page, report);
  await checkPaper(suite, page);
  await checkWords(suite, page);
  const { text, names } = withHexAddresses(report, labelsOf(stored('examples/deep_book.csv')));
  await page.open(makePage(suite.folder, text), `bytes/${names.get('m')}`);
  suite.holds('parts of a hexadecimal market by name', (await page.texts('.rows .address')).some((name) => /^0x[0-9a-f]{4}…[0-9a-f]{4}’s event queue$/.test(name)));
  await page.close();
}
