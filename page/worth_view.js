// What accounts are worth: as the command worth told it, and by the page's own sum where the script is there.

import { amountNode, counted } from './amounts.js';
import { element } from './elements.js';
import { addressNode } from './links.js';
import { worthOf } from './owners.js';
import { section, tableWithDetails } from './parts.js';
import { tradersOf } from './sums.js';
import { lastTrade } from './trades.js';

// A pair of coin and pc in pc at the price of the last trade; null where nothing was traded.
function atLastPrice(shown, market, { coin, pc }) {
  const last = lastTrade(shown, market);
  return last === null ? null : pc + (coin * last.pc) / (last.lots * market.coinLot);
}

// The worth of each account, as the command's text told it and by the page's own sum.
function worthRows(shown) {
  const told = new Map((shown.worth === null ? [] : shown.worth.rows).map((row) => [`${row.market} ${row.account}`, row]));
  if (!shown.hasAccounts) {
    return shown.worth.rows.map((row) => ({ market: null, address: row.market, account: row.account, owner: null, told: row, own: null }));
  }
  return [...shown.exchange.markets.values()].flatMap((market) => tradersOf(market).map((trader) => ({
    market,
    address: market.address,
    account: trader.address,
    owner: trader.state === 'blank' ? null : trader.owner,
    told: told.get(`${market.address} ${trader.address}`) || null,
    own: worthOf(shown, market, trader),
  })));
}

// Whether both sums of a row are there and differ.
function differs({ told, own }) { return told !== null && own !== null && (told.coin !== own.coin || told.pc !== own.pc); }

// One account's cells.
function worthRow(shown, row) {
  const { market, told, own } = row;
  const pair = told || own || { coin: 0n, pc: 0n };
  const value = market === null ? null : atLastPrice(shown, market, pair);
  const name = (token) => `worth ${row.address} ${row.account} ${token}`;
  return {
    name: `worth ${row.address} ${row.account}`,
    mark: differs(row) ? 'refused' : '',
    cells: [
      addressNode(shown, row.address),
      addressNode(shown, row.account),
      row.owner === null ? '' : addressNode(shown, row.owner),
      amountNode(pair.coin, 'coin', market, name('coin')),
      amountNode(pair.pc, 'pc', market, name('pc')),
      value === null ? '' : amountNode(value, 'pc', market),
      differs(row) ? ['coin ', amountNode(own.coin, 'coin', market), ', pc ', amountNode(own.pc, 'pc', market)] : '',
    ],
  };
}

// Where the numbers come from, and whether both sources agree.
function sourceNode(shown, rows) {
  const hint = (text) => element('p', { class: 'hint' }, text);
  if (shown.worth === null) return hint('These are the page’s own sums. Open what ./dex worth writes for the script too, and both are compared.');
  if (rows.every(({ own }) => own === null)) {
    return hint('These are the sums that ./dex worth wrote. Open report and script too, and the page compares them with its own.');
  }
  const off = rows.filter(differs).length;
  const text = off === 0 ? 'The page’s own sums of all accounts are what ./dex worth wrote.'
    : `Of ${counted(off, 'account')} the page’s own sum is another than what ./dex worth wrote.`;
  return element('p', { 'class': off === 0 ? 'verdict good' : 'verdict bad', 'role': 'status', 'data-name': 'worth' }, text);
}

/** The view of worth. */
export function worthView(shown) {
  const rows = worthRows(shown);
  const { node } = tableWithDetails({
    label: 'Worth of accounts',
    columns: [
      { title: 'Market', isWide: true },
      { title: 'Account', isWide: true },
      { title: 'Owner', isWide: true },
      { title: 'Coin', isNumber: true, isWide: true, size: '1.3fr' },
      { title: 'Pc', isNumber: true, isWide: true, size: '1.3fr' },
      { title: 'In pc at the last price', isNumber: true, isWide: true, size: '1.3fr' },
      { title: 'The page’s own sum, where it differs', isWide: true, size: '1.4fr' },
    ],
    count: rows.length,
    least: 900,
    empty: 'There are no accounts.',
    rowAt: (at) => worthRow(shown, rows[at]),
  });
  return [
    sourceNode(shown, rows),
    section(counted(rows.length, 'account'),
      element('p', { class: 'hint' }, 'Worth is what the market holds for an account (free, resting and owed), less what its orders took from '
        + 'wallets, plus what settling paid out: what trading brought so far, fees and rebates included. Cranks do not change it.'),
      node),
  ];
}
