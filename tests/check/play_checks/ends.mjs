// What stands there first, on a telephone too; a swap with its two legs there; and accounts of a ledger that are dropped as JSON.

import { checkAccount, dropFiles, morning, oneAccount } from '../view_browser/ledger.mjs';
import { stored } from '../view_browser/texts.mjs';

// Where the answers to the row at the caret stand, and how high the window is.
function repliesInSight(page) {
  return page.run(() => [...document.querySelectorAll('[data-name=reply]')].map((node) => {
    const { top, bottom } = node.getBoundingClientRect();
    return { text: node.textContent, isInSight: top >= 0 && bottom <= window.innerHeight };
  }));
}

// The page as it opens: a deep book, with the caret behind a row that fills an order, and the answer to it in sight.
async function checkOpening(suite, player, width) {
  await player.page.open(player.file);
  await player.calm();
  suite.same(`opened at ${width}: the script`, await player.rows(), stored('examples/deep_book.csv'));
  const replies = await repliesInSight(player.page);
  suite.same(`opened at ${width}: the answers in sight`, replies.map(({ isInSight }) => isInSight), [true]);
  suite.holds(`opened at ${width}: it fills`, /^row 28 .* filled 0\.0025 coin for 0\.0129 usd, fee /.test(replies[0].text), replies[0].text);
  suite.same(`opened at ${width}: row 28 fills, as the report has it`, /^entry 2 28 ok order \d+ 0 25 12900 29 0 /m.test(stored('examples/deep_book.report')), true);
  suite.same(`opened at ${width}: the field has not the focus`, await player.page.run(() => document.activeElement.tagName), 'BODY');
}

// A swap: how both legs were answered, in sight.
async function checkLegs(suite, player, width) {
  await player.page.choose('Example', 'swap');
  await player.calm();
  await player.caretBehind(stored('examples/swap.csv').split('\n').find((line) => line.startsWith('swap,')));
  const replies = await repliesInSight(player.page);
  suite.same(`a swap at ${width}: two legs in sight`, replies.map(({ isInSight }) => isInSight), [true, true]);
  suite.same(`a swap at ${width}: two markets`, new Set(replies.map(({ text }) => /on (\S+),/.exec(text)[1])).size, 2);
}

// Accounts of a ledger: one, with what is missing; then all of its market, which is played on as a dump.
async function checkDropped(suite, player, width) {
  const { page } = player;
  const one = oneAccount(3);
  await dropFiles(page, [{ name: 'mine.json', text: JSON.stringify(one) }]);
  suite.same(`one account at ${width}: the view`, await page.text('main h1'), 'Accounts');
  await checkAccount(suite, page, `one account at ${width}`, one, false);
  suite.holds(`one account at ${width}: its market is missing`, (await page.text('[data-name=missing]')).includes('the market 66U5PsWR'));
  await dropFiles(page, morning().filter(({ name }) => /^(market|queues|vaults)/.test(name) && !name.startsWith('vaults')));
  await checkAccount(suite, page, `with its market and queues at ${width}`, one, false);
  suite.holds(`with its market and queues at ${width}: mints are missing`, (await page.text('[data-name=missing]')).includes('mint of coin'));
  await dropFiles(page, [{ name: 'x.json', text: '{' }]);
  suite.holds(`a file that is none at ${width}`, (await page.text('.faults')).includes('It is no JSON'));
  await dropFiles(page, morning());
  await player.calm();
  suite.holds(`all of a market at ${width}: a dump stands in front`, (await player.named('folded')).includes('A dump of'));
  await page.go('#traders');
  suite.same(`all of a market at ${width}: its traders`, await page.text('main h2'), 'Traders (9)');
}

/** The cases of what people hold. */
export async function endCases(suite) {
  for (const [width, height] of [[390, 844], [1280, 900]]) {
    const player = await suite.player(width, height);
    await checkOpening(suite, player, width);
    await checkLegs(suite, player, width);
    await checkDropped(suite, player, width);
    await player.page.close();
  }
}
