// A person over all markets: what settling and a crank would pay now, open orders, fees and rebates, worth, wallets.

import { amountNode, counted, mintAmountNode, numberNode, priceNode, sizeNode } from './amounts.js';
import { element } from './elements.js';
import { addressNode, linkOfOrder, linkTo, shortAddress } from './links.js';
import { accountsOf, personsOf, swapRowsOf, takesOf, worthOf } from './owners.js';
import { addressFacts, facts, notice, section } from './parts.js';
import { lockedBy } from './sums.js';
import { swapSection } from './swap_table.js';
import { Table } from './table.js';
import { priceText } from './units.js';

// A line of a table of both tokens: its name, coin and pc.
function pairLine(name, market, pair, label, mark = '') {
  const amount = (token) => (pair[token] === undefined ? '' : amountNode(pair[token], token, market, `${label} ${token}`));
  const cell = (token) => element('td', { class: 'number' }, amount(token));
  return element('tr', { class: mark }, element('th', { scope: 'row' }, name), cell('coin'), cell('pc'));
}

// The worth that the command told; null where its text is not there.
function toldLine(shown, market, trader, label) {
  const isSought = (row) => row.market === market.address && row.account === trader.address;
  const row = shown.worth === null ? undefined : shown.worth.rows.find(isSought);
  return row === undefined ? null : pairLine('Worth, as ./dex worth wrote it', market, row, `${label} told worth`);
}

// What the script tells of an account besides: deposits, what was settled, fees, rebates, worth.
function scriptLines(shown, market, trader, label) {
  const all = shown.dealings(market);
  if (all === null) return toldLine(shown, market, trader, label);
  const { deposited, settled, fees, rebates } = all.get(trader.address);
  const { why } = shown.replay(market);
  return [
    pairLine('Deposited by its orders', market, deposited, `${label} deposited`),
    pairLine('Settled so far', market, settled, `${label} settled`),
    pairLine('Worth', market, worthOf(shown, market, trader), `${label} worth`, 'total'),
    toldLine(shown, market, trader, label),
    pairLine('Fees paid as taker', market, { pc: fees }, `${label} fees`),
    why === null ? pairLine('Rebates earned as maker', market, { pc: rebates }, `${label} rebates`) : null,
  ];
}

// What a crank has to consume until it has paid an account.
function crankText({ events, ahead }) {
  if (events === 0) return 'No event waits for it.';
  return `${counted(events, 'event waits', 'events wait')} for it; a crank reaches the last of them with ${counted(ahead, 'event')} from the front.`;
}

// One account of the person.
function accountSection(shown, { market, trader, orders, crank }) {
  const label = `${market.address} ${trader.address}`;
  const after = { coin: trader.free.coin + crank.coin, pc: trader.free.pc + crank.pc };
  const bids = orders.filter(({ isBid }) => isBid).length;
  const title = (text) => element('th', { scope: 'col', class: 'number' }, text);
  const head = element('thead', {}, element('tr', {}, element('td', {}), title('Coin'), title('Pc')));
  return section([addressNode(shown, trader.address), ' on ', addressNode(shown, market.address)],
    element('table', { class: 'sum pairs' }, head, element('tbody', {},
      pairLine('Free: settling pays now', market, trader.free, `${label} free`),
      pairLine('Owed: a crank pays now', market, crank, `${label} owed`),
      pairLine('Settling behind that crank pays', market, after, `${label} after`, 'total'),
      pairLine('Resting: locked by orders', market, trader.resting, `${label} resting`),
      scriptLines(shown, market, trader, label),
      pairLine('For the referrer, at the next settling', market, { pc: trader.referrer }, `${label} referrer`))),
    element('p', { class: 'hint' }, `${crankText(crank)} ${counted(bids, 'bid rests', 'bids rest')} and `
      + `${counted(orders.length - bids, 'ask rests', 'asks rest')}; `
      + `${trader.taken} of 128 slots are taken${trader.state === 'closed' ? '; the account is closed' : ''}.`));
}

// The open orders of a person, over all markets.
function orderTable(shown, accounts) {
  const rows = accounts.flatMap(({ market, orders }) => orders.map((order) => ({ market, order })));
  return [rows.length, new Table({
    label: 'Open orders',
    columns: [
      { title: 'Side', size: '3rem' },
      { title: 'Market', isWide: true, size: 'minmax(6.2rem, 1fr)' },
      { title: 'Price', isNumber: true, size: '1.2fr' },
      { title: 'Size', isNumber: true, size: '1.2fr' },
      { title: 'From the best', isNumber: true, size: '1.1fr' },
      { title: 'Locked', isNumber: true, isWide: true, size: '1.3fr' },
      { title: 'Sequence number', isNumber: true, size: '6rem' },
      { title: 'Account', isWide: true, size: 'minmax(6.2rem, 1fr)' },
    ],
    count: rows.length,
    least: 820,
    empty: 'No order rests.',
    rowAt: (at) => {
      const { market, order } = rows[at];
      const [best] = order.isBid ? market.bids.orders : market.asks.orders;
      const away = order.isBid ? best.price - order.price : order.price - best.price;
      return {
        name: `open ${order.id}`,
        mark: order.isBid ? 'bid' : 'ask',
        cells: [
          order.isBid ? 'bid' : 'ask',
          addressNode(shown, market.address),
          priceNode(order.price, market),
          sizeNode(order.lots, market),
          away === 0n ? 'best' : priceText(away, market),
          amountNode(lockedBy(order, market), order.isBid ? 'pc' : 'coin', market),
          element('a', { href: linkOfOrder(shown, market, order.id) }, numberNode(order.sequence)),
          addressNode(shown, order.owner),
        ],
      };
    },
  }).node];
}

// The takes that a person signed, where the script tells.
function takeFacts(shown, person) {
  return [...shown.exchange.markets.values()].map((market) => [market, takesOf(shown, market, person)])
    .filter(([, takes]) => takes !== null && takes.rows > 0)
    .map(([market, { rows, lots, pc, fee }]) => [`Takes on ${shortAddress(market.address)}`,
      [counted(rows, 'row'), ': ', sizeNode(lots, market), ' for ', amountNode(pc, 'pc', market), ', fee ', amountNode(fee, 'pc', market)]]);
}

// The page of one person.
function personNodes(shown, person) {
  const accounts = accountsOf(shown, person);
  const wallets = [...shown.exchange.wallets.values()].filter(({ owner }) => owner === person);
  const [count, table] = orderTable(shown, accounts);
  const isAlone = shown.joined === null && shown.report.kind === 'report';
  return [
    isAlone ? element('p', { class: 'hint' }, 'Open the script too, and fees, rebates and worth are told.') : null,
    facts([
      ...wallets.map((wallet) => [['Wallet ', addressNode(shown, wallet.address)], mintAmountNode(shown, wallet.amount, wallet.mint)]),
      ...takeFacts(shown, person),
      ...addressFacts(person),
    ]),
    element('div', { class: 'sums' }, accounts.map((account) => accountSection(shown, account))),
    section(`Open orders (${count})`, table),
    swapSection(shown, swapRowsOf(shown, person)),
  ];
}

// All persons.
function personTable(shown, persons) {
  return new Table({
    label: 'Owners',
    columns: [
      { title: 'Owner', isWide: true },
      { title: 'Accounts', isNumber: true },
      { title: 'Markets', isNumber: true },
      { title: 'Open orders', isNumber: true },
      { title: 'Wallets', isNumber: true },
    ],
    count: persons.length,
    empty: 'There are no owners.',
    rowAt: (at) => {
      const accounts = accountsOf(shown, persons[at]);
      return {
        name: `owner ${persons[at]}`,
        cells: [
          element('a', { href: linkTo('owners', persons[at]), title: persons[at] }, shortAddress(persons[at])),
          accounts.length,
          new Set(accounts.map(({ market }) => market.address)).size,
          accounts.reduce((sum, { orders }) => sum + orders.length, 0),
          [...shown.exchange.wallets.values()].filter(({ owner }) => owner === persons[at]).length,
        ],
      };
    },
  });
}

/** The view of owners: all of them, or the one that is the subject. */
export function ownersView(shown, subject) {
  const persons = personsOf(shown.exchange);
  const isThere = persons.includes(subject);
  return [
    subject !== '' && !isThere ? notice(`There is no owner ${shortAddress(subject)} in this text.`) : null,
    isThere ? section([element('span', { title: subject }, shortAddress(subject)), ' over all markets'], personNodes(shown, subject)) : null,
    section(`All owners (${persons.length})`, personTable(shown, persons).node),
  ];
}
