// The page's own audit: the findings of stored dumps, each kind once, and what stands in green.

import { dumpOf, makePage, stored, withBytes } from './texts.mjs';

// Eight bytes of a number.
function word(number) {
  const bytes = Buffer.alloc(8);
  bytes.writeBigUInt64LE(BigInt(number));
  return bytes;
}

// The places of what is changed in the dump of the deep book, and the kinds that are found then. The first taken slots of amy are 0 and 1.
const CHANGES = [
  ['a free slot whose order rests', 'orders,m,amy,', 3, 109, [255], [2, 4]],
  ['a sequence number behind the next one', 'orders,m,amy,', 3, 141 + 16, [0, 0, 0, 0, 0, 0, 0, 1], [2, 3, 5]],
  ['a total', 'orders,m,amy,', 3, 101, word(1n << 40n), [7]],
  ['a word of deposits', 'market,m,', 3, 149, word(7), [8]],
  ['a vault', 'market,m,', 4, 64, word(7), [9, 12]],
  ['referrer rebates', 'market,m,', 3, 373, word(9), [9, 10]],
  ['a vault near its bound', 'market,m,', 4, 64, word((1n << 64n) - 1n), [9, 11, 12]],
  ['a supply', 'mint,coin,', 2, 36, word(7), [12]],
  ['a lot of an ask that locks too much', 'market,m,', 3, 349, word(1n << 63n), [13]],
];

// The kinds that the page tells, and whether anything of the verdicts is green.
async function told(page) {
  return page.run(() => ({
    kinds: [...new Set([...document.querySelectorAll('.kinds .bad')].map((node) => Number(node.textContent.split(' ')[0])))],
    green: [...document.querySelectorAll('.verdict.good')].length,
  }));
}

// Dumps with a finding of the program's own: the page finds the same, and says so.
async function checkStored(suite, page) {
  for (const name of ['0408', '0444', '0452', '0461', '0484', '0512']) {
    const answer = stored(`tests/cases/audit/${name}.out`);
    await page.open(makePage(suite.folder, stored(`tests/cases/audit/${name}.in`), { 'answer.txt': answer }), 'audit');
    suite.same(`${name}: the page finds what the audit told`, await page.text('[data-name="comparison"]'), 'The text that ./dex audit wrote says the same.');
    const lines = await page.run(() => [...document.querySelectorAll('.rows .row')].length);
    const count = answer.split('\n').filter((line) => line.startsWith('finding')).length;
    suite.same(`${name}: findings at the tab`, await page.text('[data-key="tab audit"]'), count === 0 ? 'Audit' : `Audit (${count})`);
    suite.same(`${name}: findings`, lines, count);
  }
}

// Dumps with one change: the page finds the kinds, and shows nothing in green in Vaults nor in Audit.
async function checkChanges(suite, page) {
  const dump = dumpOf(stored('examples/deep_book.report'));
  for (const [name, row, field, place, bytes, kinds] of CHANGES) {
    const text = withBytes(dump, row, field, place, bytes);
    await page.open(makePage(suite.folder, text), 'audit');
    const found = await told(page);
    suite.same(`${name}: kinds`, kinds.every((kind) => found.kinds.includes(kind)) ? kinds : found.kinds, kinds);
    suite.holds(`${name}: something is found`, found.kinds.length > 0);
    suite.same(`${name}: nothing is green in Audit`, found.green, 0);
    await page.go('#vaults/m');
    suite.same(`${name}: nothing is green in Vaults`, (await told(page)).green, 0);
    suite.holds(`${name}: Vaults tells the findings`, /^Audit: [0-9]+ finding/.test(await page.text('[data-name="audit"]')));
  }
}

/** The page's audit. */
export async function auditCases(suite) {
  const page = await suite.browser.page(1280);
  await checkStored(suite, page);
  await checkChanges(suite, page);
  await page.close();
}
