// What helps to write a script: names of fields, words that are offered, the small form, rows that a click writes.

import { stored } from '../view_browser/texts.mjs';

// The fields at places of a row: what stands in bold, and the first words that are offered.
const PLACES = [
  ['mint,coin,6\nmi', 'Row', ['mint']],
  ['wallet,ann_coin,', 'Mint', ['coin', 'usd']],
  ['do,0,', 'Market', ['m']],
  ['do,0,m,', 'Signer', ['ann', 'bob']],
  ['do,0,m,ann,', 'Accounts', ['amy', 'ben', '-']],
  ['do,0,m,ann,amy,', 'Coin wallet', ['ann_coin', 'bob_coin', '-']],
  ['do,1,m,bob,ben,-,', 'Pc wallet', ['bob_usd', 'ann_usd', '-']],
  ['do,0,m,ann,amy,ann_coin,-,-,-,', 'new', ['init', 'new', 'take']],
  ['do,0,m,ann,amy,ann_coin,-,-,-,new ', 'Side', ['bid', 'ask']],
  ['new ask 50 4 1 ', 'Self-trade', ['decrement', 'cancel', 'abort']],
  ['new ask 50 4 1 decrement li', 'Type', ['limit', 'ioc']],
];

// Names of fields and offers.
async function checkPlaces(suite, player) {
  await player.open();
  for (const [place, name, offers] of PLACES) {
    const text = place.startsWith('mint,coin,6\nmi') ? 'mint,coin,6\nmi' : place;
    await player.caretBehind(text);
    suite.same(`behind ${place}: the field`, await player.page.text('.row-fields strong'), name);
    const found = await player.page.texts('.offers .offer');
    suite.same(`behind ${place}: what is offered`, found.slice(0, offers.length), offers);
  }
}

// An offer that is clicked, or taken by keys, stands in the place of the word.
async function checkOffers(suite, player) {
  await player.open();
  await player.caretBehind('new a');
  await player.click('bid', '.offers');
  suite.holds('a word that is clicked', (await player.rows()).includes('new bid 50 4 1'));
  await player.replace('new bid 50 4 1', 'new ask 50 4 1');
  await player.caretBehind('ann,amy,an');
  await player.page.run(() => {
    const words = { key: ' ', ctrlKey: true, bubbles: true, cancelable: true };
    document.querySelector('textarea').dispatchEvent(new KeyboardEvent('keydown', words));
  });
  await player.calm();
  suite.holds('a word that is taken by keys', (await player.rows()).includes('ann,amy,bob_coin,-,-,-,new ask'));
}

// The form writes each of its rows; the program takes them.
async function checkForm(suite, player) {
  await player.open();
  const before = await player.rows();
  await player.click('Add a row');
  const kinds = await player.page.run(() => [...document.querySelectorAll('.row-form select')[0].options].map(({ value }) => value));
  suite.holds('the form has a swap', kinds.includes('a swap'));
  for (const kind of kinds) {
    await player.drop('two.csv', kind === 'a swap' ? stored('tests/data/swaps.csv') : before);
    await player.form(kind);
    const row = await player.named('new row');
    await player.click('Write the row');
    suite.holds(`the form for ${kind}: its row stands there`, (await player.rows()).includes(`${row}\n`), row);
    suite.same(`the form for ${kind}: no row is at fault`, await player.named('row fault'), '');
  }
  await player.drop('two.csv', before);
  await player.form('a market');
  await player.page.run(() => {
    for (const [name, value] of [['address', 'big'], ['coinLot', '1000'], ['pcLot', '25'], ['bids', '63']]) {
      const field = document.querySelector(`.row-form [name=${name}]`);
      field.value = value;
      field.dispatchEvent(new Event('input', { bubbles: true }));
    }
  });
  await player.click('Write the row');
  await player.page.go('#book/big');
  suite.holds('a market of the form: its lots', (await player.page.text('main')).includes('Coin lot1,000Pc lot25'));
  suite.holds('a market of the form: its row stands before the instructions', (await player.rows()).indexOf('market,big,') < (await player.rows()).indexOf('do,0,m,'));
  await player.click('Add a row');
}

// An order of the form: what hangs on a field follows it.
async function checkOrder(suite, player) {
  await player.open();
  await player.click('Add a row');
  const set = (name, value) => player.page.run((field, text) => {
    const node = document.querySelector(`.row-form [name=${field}]`);
    node.value = text;
    node.dispatchEvent(new Event('input', { bubbles: true }));
  }, name, value);
  await set('account', 'ben');
  await set('price', '40');
  await set('lots', '2');
  suite.same('an order of the form', await player.named('new row'), 'do,1,m,bob,ben,-,bob_usd,-,-,new bid 40 2 802 decrement limit 8 10');
  await player.click('Write the row');
  suite.same('an order of the form: it rests', await player.page.run(() => document.querySelector('main .rows .row').dataset.row), 'bid 40 2 2');
}

// A click cancels an order that rests, and settles an account.
async function checkDeeds(suite, player) {
  await player.open();
  await player.page.go('#book/m');
  await player.click('Cancel', 'main');
  suite.holds('a cancel: its row', (await player.rows()).endsWith('do,0,m,ann,amy,-,-,-,-,cancel ask 922337203685477580800\n'));
  suite.holds('a cancel: it was taken', (await player.saved()).text.includes('entry 0 19 ok cancelled 1\n'));
  suite.same('a cancel: the view stays', await player.page.run(() => document.querySelector('main').dataset.view), 'book');
  await player.page.go('#traders/m');
  await player.click('Settle', 'main');
  suite.holds('a settling: its row', (await player.rows()).endsWith('do,0,m,ann,amy,ann_coin,ann_usd,-,-,settle\n'));
  suite.holds('a settling: it was taken', (await player.saved()).text.includes('entry 0 20 ok settled '));
  await player.page.run(() => { document.querySelector('textarea').focus(); document.execCommand('undo'); document.execCommand('undo'); });
  await player.calm();
  suite.same('what was written can be undone', await player.rows(), stored('examples/two_traders.csv'));
}

// Keys: none of the page's keys is heard in the field, and the field can be left.
async function checkKeys(suite, player) {
  await player.open();
  await player.page.run(() => document.querySelector('textarea').focus());
  await player.page.press('5');
  suite.same('a digit in the field changes no view', await player.page.run(() => document.querySelector('main').dataset.view), 'book');
  await player.page.press('Escape');
  suite.same('the field is left', await player.page.run(() => document.activeElement.tagName), 'BODY');
  await player.page.press('1');
  suite.same('a digit elsewhere goes to a view', await player.page.run(() => document.querySelector('main').dataset.view), 'overview');
  await player.page.press('/');
  suite.same('a stroke goes to the search', await player.page.run(() => document.activeElement.type), 'search');
  const unnamed = await player.page.run(() => [...document.querySelectorAll('button, input, select, textarea')]
    .filter((node) => !(node.labels && node.labels.length > 0) && node.textContent.trim() === '' && !node.getAttribute('aria-label'))
    .map((node) => node.outerHTML.slice(0, 80)));
  suite.same('all that is pressed or typed in has a name', unnamed, []);
}

/** What helps to write. */
export async function helpCases(suite) {
  const player = await suite.player(1280, 900);
  for (const check of [checkPlaces, checkOffers, checkForm, checkOrder, checkDeeds, checkKeys]) await check(suite, player);
  await player.page.close();
}
