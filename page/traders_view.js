// What each open-orders account of a market has: free, resting, and owed by pending events.

import { amountNode, counted } from './amounts.js';
import { element } from './elements.js';
import { addressNode, linkTo } from './links.js';
import { worthOf } from './owners.js';
import { section, seekRow, tableWithDetails } from './parts.js';
import { tradersOf } from './sums.js';

// Whether the words of totals in an account are what is free, resting and kept by events.
function totalsText(trader) {
  const off = ['coin', 'pc']
    .map((token) => [token, trader.total[token] - trader.free[token] - trader.resting[token] - trader.kept[token]])
    .filter(([, difference]) => difference !== 0n);
  return off.length === 0 ? 'add up' : off.map(([token, difference]) => `${token} off by ${difference}`).join(', ');
}

// What the script tells of an account besides.
function dealingFacts(shown, market, trader) {
  const all = shown.dealings(market);
  if (all === null) return [];
  const { fees, rebates } = all.get(trader.address);
  const worth = worthOf(shown, market, trader);
  return [
    ['Worth', [amountNode(worth.coin, 'coin', market), ' and ', amountNode(worth.pc, 'pc', market)]],
    ['Fees paid', amountNode(fees, 'pc', market)],
    ['Rebates earned', amountNode(rebates, 'pc', market)],
  ];
}

// One account's cells and details.
function traderRow(shown, market, trader) {
  const account = [addressNode(shown, trader.address), ' '];
  if (trader.state === 'blank') return { name: `trader ${trader.address}`, cells: [account, 'blank', '', '', '', '', '', '', '', '', ...(shown.deeds === null ? [] : [''])] };
  const amounts = ['coin', 'pc'].flatMap((token) => ['free', 'resting', 'owed']
    .map((what) => amountNode(trader[what][token], token, market, `${trader.address} ${what} ${token}`)));
  const owner = [element('span', { class: 'quiet' }, 'of '), addressNode(shown, trader.owner)];
  return {
    name: `trader ${trader.address}`,
    cells: [[account, owner], trader.state, ...amounts, amountNode(trader.referrer, 'pc', market), totalsText(trader),
      ...(shown.deeds === null ? [] : [shown.deeds.ofAccount(market, trader)])],
    details: [
      ['Slots taken', `${trader.taken} of 128`],
      ['Orders', `${counted(trader.bids, 'bid')}, ${counted(trader.asks, 'ask')}`],
      ['Coin total', amountNode(trader.total.coin, 'coin', market)],
      ['Pc total', amountNode(trader.total.pc, 'pc', market)],
      ...dealingFacts(shown, market, trader),
      ['Journal', element('a', { href: linkTo('journal', market.address, { account: trader.address }) }, 'its rows')],
      ['Bytes', element('a', { href: linkTo('bytes', trader.address) }, 'its account by field')],
    ],
  };
}

/** The view of a market's traders; `words.account` is the account to choose. */
export function tradersView(shown, market, words) {
  const traders = tradersOf(market);
  const titles = ['Coin free', 'Coin resting', 'Coin owed', 'Pc free', 'Pc resting', 'Pc owed'];
  const table = tableWithDetails({
    label: 'Open-orders accounts',
    columns: [
      { title: 'Account', size: 'minmax(9.2rem, 1.2fr)', isWide: true },
      { title: 'State', size: '4rem' },
      ...titles.map((title) => ({ title, isNumber: true, isWide: true })),
      { title: 'Referrer part', isNumber: true },
      { title: 'Totals', size: '6rem' },
      ...(shown.deeds === null ? [] : [{ title: '', size: '4.4rem' }]),
    ].map((column) => ({ ...column, lines: 2, narrowLines: 1 })),
    count: traders.length,
    least: 1100,
    empty: 'The market has no accounts.',
    linkOf: (at) => linkTo('traders', market.address, { account: traders[at].address }),
    rowAt: (at) => traderRow(shown, market, traders[at]),
  });
  const sought = traders.findIndex(({ address }) => address === words.account);
  const told = words.account === undefined ? null : seekRow(table, sought, `account ${words.account}`);
  return [
    told,
    section(`Traders (${traders.length})`,
      element('p', { class: 'hint' }, counted(traders.filter((trader) => trader.state === 'open').length, 'account is', 'accounts are'),
        ' open. Free can be settled at once; resting is locked by orders on the book; owed waits in the event queue.'),
      table.node),
  ];
}
