// Swaps: their fields by name, data in words, the form, how both legs were answered, and rows whose legs do not go together.

import { stored } from '../view_browser/texts.mjs';

const SCRIPT = stored('tests/data/swaps.csv');
const SWAP = SCRIPT.split('\n')[16];

// The fields at places of a swap row: what stands in bold, what may stand there, and the first word that is offered.
const PLACES = [
  ['swap,1,', 'Signer', 'who signs both legs', 'ann'],
  ['swap,1,bob,', 'Market 1', 'the market of the first leg', 'm'],
  ['swap,1,bob,m,', 'Coin wallet 1', 'a swap names each wallet once', 'bob_coin'],
  ['swap,1,bob,m,bob_coin,bob_usd,', 'Data 1', 'take bid 60 1 700 1 0 10, in base64', 'take bid 50 1 502 1 0 10'],
  [SWAP.split(',').slice(0, 9).join(','), 'Coin wallet 2', 'a swap names each wallet once', 'bob_coin2'],
  [SWAP, 'Data 2', 'take ask 65 1 1 0 600 10, in base64', 'take ask 70 1 1 1 0 10'],
];

// The stored report, how both legs were answered, and the names of fields.
async function checkRow(suite, player) {
  await player.open();
  await player.drop('swaps.csv', SCRIPT);
  suite.same('swaps: the report', (await player.saved()).text, stored('tests/data/swaps.report'));
  suite.same('swaps: refused rows are marked once', await player.page.texts('.gutter .refused-row'), ['18', '19', '20']);
  for (const [place, name, says, offer] of PLACES) {
    await player.caretBehind(place);
    suite.same(`behind ${place.slice(0, 40)}: the field`, await player.page.text('.row-fields strong'), name);
    suite.holds(`behind ${place.slice(0, 40)}: what may stand there`, (await player.named('says')).includes(says), await player.named('says'));
    suite.same(`behind ${place.slice(0, 40)}: what is offered first`, (await player.page.texts('.offers .offer'))[0], offer);
  }
  await player.caretBehind(SCRIPT.split('\n')[18]);
  const replies = await player.page.texts('[data-name="reply"]');
  suite.same('a row of a swap: how many answers', replies.length, 2);
  suite.holds('a row of a swap: the first leg', replies[0].startsWith('row 19 on n, Held back: It did nothing, since the other leg, on m, '), replies[0]);
  suite.holds('a row of a swap: the second leg', replies[1].startsWith('row 19 on m, 20 BelowMinimum: '), replies[1]);
}

// Data becomes words to change, and words in its place become data.
async function checkWords(suite, player) {
  await player.caretBehind(SWAP.split(',').slice(0, 7).join(','));
  await player.click('as words', '.offers');
  suite.holds('words in the place of data: a fault', (await player.named('row fault')).startsWith('Row 17: 4 BadNumber.'));
  await player.replace('take bid 60 1 700 1 0 10,n', 'take bid 60 2 1400 2 0 10,n');
  await player.caretBehind('bob_usd,take bid 60 2');
  await player.click('take bid 60 2 1400 2 0 10', '.offers');
  suite.holds('words that become data: the leg', (await player.saved()).text.includes('\nentry 1 17 ok take 2 1000 3 bob_coin credit 200 0 bob_usd debit 1003 5000\n'));
  await player.click('as words', '.offers');
  await player.replace('take bid 60 2 1400 2 0 10', 'take bid 60 1 700 1 0 10');
  await player.caretBehind('bob_usd,take bid 60 1');
  await player.click('take bid 60 1 700 1 0 10', '.offers');
  suite.same('words that become data: the script as it was', await player.rows(), SCRIPT);
  suite.same('words that become data: no fault', await player.named('row fault'), '');
}

// The form's swap acts.
async function checkSwapForm(suite, player) {
  await player.open();
  await player.click('Add a row');
  await player.form('a swap');
  suite.holds('a swap of the form: one market is too few', (await player.named('new row')).includes('a second market'));
  await player.drop('swaps.csv', SCRIPT);
  await player.page.run(() => {
    for (const [name, value] of [['signer', 'bob'], ['lots', '2'], ['price2', '65']]) {
      const field = document.querySelector(`.row-form [name=${name}]`);
      field.value = value;
      field.dispatchEvent(new Event('input', { bubbles: true }));
    }
  });
  const fields = (await player.named('new row')).split(',');
  suite.same('a swap of the form: wallets of the signer, each once', [...fields.slice(0, 6), ...fields.slice(7, 10)].join(','),
    'swap,1,bob,m,bob_coin,bob_usd,n,bob_coin2,bob_usd2');
  await player.click('Write the row');
  suite.same('a swap of the form: no row is at fault', await player.named('row fault'), '');
  const lines = (await player.saved()).text.split('\n').filter((line) => /^entry 1 26 /.test(line));
  suite.same('a swap of the form: both legs act', lines, ['entry 1 26 ok take 2 1000 3 bob_coin credit 200 400 bob_usd debit 1003 2993',
    'entry 1 26 ok take 1 700 2 bob_coin2 debit 100 200 bob_usd2 credit 698 698']);
  await player.click('Add a row');
}

// Rows whose legs do not go together are told with what is wrong and what to do.
async function checkFaults(suite, player) {
  for (const [from, to, what] of [
    [',n,bob_coin2,', ',m,bob_coin2,', 'both legs are on m'],
    ['bob_coin2,bob_usd2,', 'bob_coin2,bob_usd,', 'the wallet bob_usd is named twice'],
    ['AA0AAAABAAAAQQAAAAAAAAABAAAAAAAAAAEAAAAAAAAAAAAAAAAAAABYAgAAAAAAAAoA', 'AAUAAAA=', 'the data of its second leg is SettleFunds'],
  ]) {
    await player.open();
    await player.drop('swaps.csv', SCRIPT);
    await player.replace(from, to);
    const fault = await player.named('row fault');
    suite.holds(`BadSwap: ${what}`, fault.startsWith(`Row 17: 10 BadSwap. Here ${what}. Give a swap two markets `), fault);
  }
}

/** Swaps. */
export async function swapRowCases(suite) {
  const player = await suite.player(1280, 900);
  for (const check of [checkRow, checkWords, checkSwapForm, checkFaults]) await check(suite, player);
  await player.page.close();
}
