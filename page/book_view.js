// A market's book: its sizes, the depth, and the orders that rest on both sides.

import { amountNode, bareNode, counted, numberNode, priceNode, sizeNode } from './amounts.js';
import { depthChart } from './chart.js';
import { element } from './elements.js';
import { addressNode, linkOfOrder, linkTo, rowNode } from './links.js';
import { addressFacts, facts, notice, section, seekRow, tableWithDetails } from './parts.js';
import { priceChart } from './price_chart.js';
import { levelsOf, lockedBy } from './sums.js';
import { Table } from './table.js';
import { spreadOf } from './trades.js';
import { volumeFacts } from './trades_view.js';
import { decimalText, priceUnit, sizeUnit } from './units.js';

// What never changes in a market, and what counts on.
function marketFacts(shown, market) {
  const mint = (address) => {
    const known = shown.exchange.mints.get(address);
    return [addressNode(shown, address), known === undefined ? '' : ` (${counted(known.decimals, 'decimal')})`];
  };
  const room = ({ capacity }, what) => counted(capacity, what);
  return facts([
    ['Coin', mint(market.coinMint)],
    ['Pc', mint(market.pcMint)],
    ['Coin lot', numberNode(market.coinLot)],
    ['Pc lot', numberNode(market.pcLot)],
    ['Authority', addressNode(shown, market.authority)],
    ['State', market.isDisabled ? 'disabled' : 'trading'],
    ['Next sequence number', numberNode(market.nextSequence)],
    ['Room', [room(market.bids, 'bid'), room(market.asks, 'ask'), room(market.events, 'event')].join(', ')],
    ['Pending', counted(market.events.list.length, 'event')],
    ...addressFacts(market.address),
  ]);
}

// The depth as a table.
function levelTable(levels, market) {
  return new Table({
    label: 'Depth by price',
    columns: [
      { title: 'Side', size: '3.2rem' },
      { title: `Price (${priceUnit(market)})`, short: 'Price', isNumber: true, size: '1.3fr' },
      { title: `Size (${sizeUnit(market)})`, short: 'Size', isNumber: true },
      { title: 'Orders', isNumber: true, size: '3.4rem' },
      { title: 'Cumulated', isNumber: true, size: 'minmax(5rem, 1fr)' },
    ],
    count: levels.length,
    least: 480,
    empty: 'Nothing rests.',
    rowAt: (at) => {
      const { isBid, price, lots, orders, total } = levels[at];
      const side = isBid ? 'bid' : 'ask';
      return {
        name: `${side} ${price} ${lots} ${total}`,
        mark: side,
        cells: [side, bareNode(priceNode(price, market)), bareNode(sizeNode(lots, market)), orders, bareNode(sizeNode(total, market))],
      };
    },
  });
}

// The row that placed an order, and the order's life.
function placedBy(shown, market, order) {
  const journal = shown.report.markets.get(market.address);
  const at = journal === undefined ? undefined : journal.ofOrder.get(order.id);
  const row = at === undefined ? 'before the first row' : rowNode(market.address, journal.rows[at]);
  return [row, '; ', element('a', { href: linkOfOrder(shown, market, order.id) }, 'its life')];
}

// The best prices and what lies between them.
function spreadFacts(market) {
  const [bid, ask] = [market.bids.orders[0], market.asks.orders[0]];
  const spread = spreadOf(market);
  const basis = spread === null ? '' : ` (${decimalText((spread.basis + 5n) / 10n, 1)} basis points)`;
  return [
    ['Best bid', bid === undefined ? 'none' : priceNode(bid.price, market, 'best bid')],
    ['Best ask', ask === undefined ? 'none' : priceNode(ask.price, market, 'best ask')],
    ['Spread', spread === null ? 'none' : [priceNode(spread.units, market, 'spread'), element('span', { 'data-name': 'basis points' }, basis)]],
  ];
}

// A side's orders, best first.
function sideTable(shown, market, orders, name) {
  return tableWithDetails({
    label: `${name}, best first`,
    columns: [
      { title: `Price (${priceUnit(market)})`, short: 'Price', isNumber: true, size: '6rem' },
      { title: `Size (${sizeUnit(market)})`, short: 'Size', isNumber: true, size: '6rem' },
      { title: 'Owner', isWide: true, size: 'minmax(6.2rem, 1fr)' },
      { title: 'Sequence number', isNumber: true, isWide: true, size: '5.5rem' },
      { title: 'Locked', isNumber: true, isWide: true, size: 'minmax(8rem, 1.2fr)' },
      ...(shown.deeds === null ? [] : [{ title: '', short: '', size: '4.6rem' }]),
    ],
    count: orders.length,
    empty: `No ${name.toLowerCase()} rest.`,
    linkOf: (at) => linkTo('book', market.address, { order: orders[at].id }),
    rowAt: (at) => {
      const order = orders[at];
      return {
        name: `order ${order.id}`,
        cells: [
          bareNode(priceNode(order.price, market)),
          bareNode(sizeNode(order.lots, market)),
          addressNode(shown, order.owner),
          numberNode(order.sequence),
          amountNode(lockedBy(order, market), order.isBid ? 'pc' : 'coin', market),
          ...(shown.deeds === null ? [] : [shown.deeds.ofOrder(market, order)]),
        ],
        details: [
          ['Order id', order.id],
          ['Slot', order.slot],
          ['Tier', order.tier],
          ['Client id', order.client],
          ['Placed by', placedBy(shown, market, order)],
        ],
      };
    },
  });
}

// The place of the order that a link asks for: by its id, or by its side and place in book order.
function soughtOrder(orders, name, words) {
  if (words.order !== undefined) return orders.findIndex((order) => String(order.id) === words.order);
  return words.side === name.toLowerCase() && Number(words.place) < orders.length ? Number(words.place) : -1;
}

/** The view of a market's book; `words.order` is the id of an order to choose, or `words.side` and `words.place` its place. */
export function bookView(shown, market, words) {
  const [bids, asks] = [levelsOf(market.bids), levelsOf(market.asks)];
  let isFound = words.order === undefined && words.side === undefined;
  const sides = [[market.bids.orders, 'Bids'], [market.asks.orders, 'Asks']].map(([orders, name]) => {
    const table = sideTable(shown, market, orders, name);
    const at = soughtOrder(orders, name, words);
    if (at >= 0) isFound = seekRow(table, at, 'order') === null;
    return section(`${name} (${orders.length})`, table.node);
  });
  return [
    isFound ? null : notice(`No order ${words.order || words.place} rests here.`),
    facts([...spreadFacts(market), ...volumeFacts(shown, market)]),
    element('div', { class: 'beside' },
      section('Depth', depthChart(bids, asks, market)),
      section('Prices by row', priceChart(shown, market))),
    section('Depth by price', levelTable([...bids, ...asks], market).node),
    element('p', { class: 'hint' },
      'Of two orders at one price, the one with the lower sequence number is the older and stands first.'),
    element('div', { class: 'beside' }, sides),
    section('The market', marketFacts(shown, market)),
  ];
}
