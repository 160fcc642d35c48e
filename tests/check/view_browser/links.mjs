// Links that ask for what is not there, the page's address when a row is chosen, and where the focus goes.

import { makePage, stored } from './texts.mjs';

// Fragments that ask for what the text has not, and what the page says of each.
const STRAY = [
  ['#%', 'The page’s address has signs behind # that name no view.'],
  ['#nope', 'There is no view nope of this text.'],
  ['#book/nope', 'There is no market nope in this text.'],
  ['#wallets/nope', 'There is no wallet nope in this text.'],
  ['#bytes/nope', 'There is no account nope in this text.'],
  ['#journal/m?row=9999', 'There is no row 9999 here.'],
  ['#events/m?place=9999', 'There is no event 9999 here.'],
  ['#traders/m?account=nope', 'There is no account nope here.'],
  ['#wallets/ann_usd?row=9999', 'There is no movement of row 9999 here.'],
  ['#bytes/amy?place=9999', 'There is no place 9999 here.'],
];

// Stray links: the notice, and that nothing else is shown in the place of what is missing.
async function checkStray(suite, page) {
  for (const [fragment, notice] of STRAY) {
    await page.go(fragment);
    const told = await page.texts('[data-name="notice"]');
    suite.holds(`${fragment}: it is told`, told.length === 1 && told[0].startsWith(notice), told.join(' '));
    suite.same(`${fragment}: no row is chosen`, await page.run(() => document.querySelector('[data-sought]') === null), true);
  }
  await page.go('#wallets/nope');
  suite.same('#wallets/nope: no wallet is told', await page.run(() => document.querySelectorAll('h2').length), 1);
}

// Choosing a row changes the page's address, so that it can be sent; opening that address chooses the row.
async function checkChoosing(suite, page, file) {
  for (const [view, address] of [['#journal/m', '#journal/m?row=17'], ['#events/m', '#events/m?place=4']]) {
    await page.go(view);
    await page.point('.rows .row:nth-child(5)');
    suite.same(`${view}: the address of the fifth row`, await page.run(() => window.location.hash), address);
    await page.open(file, address.slice(1));
    suite.same(`${address}: its row is chosen`, await page.run(() => document.querySelector('[aria-selected]').getAttribute('aria-rowindex')), '6');
  }
}

// The focus stays with what was used, or goes to the heading or the table of the row that was sought.
async function checkFocus(suite, page) {
  const focus = () => page.run(() => document.activeElement.dataset.key || document.activeElement.tagName);
  await page.go('#book');
  await page.run(() => document.querySelector('nav a[href^="#vaults"]').focus());
  await page.press('Enter');
  suite.same('a tab that was used has the focus', await focus(), 'tab vaults');
  await page.go('#journal/m');
  await page.run(() => document.querySelector('[data-key="choice Reply"], [data-key="choice Instruction"]').focus());
  const key = await focus();
  await page.go('#journal/m?kind=order');
  suite.same('a choice that was used has the focus', await focus(), key);
  await page.go('#vaults/m');
  await page.run(() => document.querySelector('section a[href^="#wallets"]').focus());
  await page.press('Enter');
  suite.same('a link into another view gives the focus to its heading', await focus(), 'H1');
  await page.go('#wallets/ann_usd');
  await page.run(() => document.querySelector('[data-key^="table Movements"]').focus());
  await page.press('ArrowDown');
  await page.press('Enter');
  suite.same('a link to a row gives the focus to its table', await focus(), 'table Journal of m');
}

// Enter in the journal leads elsewhere than to the row itself.
async function checkEnter(suite, page) {
  await page.go('#journal/m');
  await page.run(() => document.querySelector('[data-key="table Journal of m"]').focus());
  for (let step = 0; step < 4; step += 1) await page.press('ArrowDown');
  const before = await page.run(() => window.location.hash);
  await page.press('Enter');
  const after = await page.run(() => window.location.hash);
  suite.same('Enter in the journal: the row before', before, '#journal/m?row=16');
  suite.holds('Enter in the journal leads elsewhere', !after.startsWith('#journal'), after);
}

/** Links and focus. */
export async function linkCases(suite) {
  const page = await suite.browser.page(1280, 1200);
  const file = makePage(suite.folder, stored('examples/deep_book.report'));
  await page.open(file);
  await checkStray(suite, page);
  await checkChoosing(suite, page, file);
  await checkFocus(suite, page);
  await checkEnter(suite, page);
  await page.close();
}
