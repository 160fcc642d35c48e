// A market's tape: each row that filled something, with the taker's side, size, average price and fee; the last one first.

import { amountNode, bareNode, counted, priceNode, sizeNode } from './amounts.js';
import { element } from './elements.js';
import { addressNode, linkTo, orderNode } from './links.js';
import { facts, section, seekRow, tableWithDetails } from './parts.js';
import { priceChart } from './price_chart.js';
import { lastFillPrice, lastTrade, tradeAt } from './trades.js';
import { otherLegFacts } from './sentences.js';
import { averageText, priceText, priceUnit, sizeUnit } from './units.js';

// An average price as an element.
function averageNode(pc, lots, market, name = null) {
  return element('span', { class: 'amount', 'data-name': name }, averageText(pc, lots, market));
}

// The price of the last fill, or the average of the row where the script is not there.
function lastPriceNode(shown, market, last) {
  if (last === null) return 'none';
  const price = lastFillPrice(shown, market);
  return price === null ? averageNode(last.pc, last.lots, market, 'last price') : priceNode(price, market, 'last price');
}

/** What was traded in a market, as named values. */
export function volumeFacts(shown, market) {
  const journal = shown.report.markets.get(market.address);
  if (journal === undefined) return [];
  const last = lastTrade(shown, market);
  const { lots, pc, fees } = journal.volume;
  return [
    ['Last price', lastPriceNode(shown, market, last)],
    ['Volume', [sizeNode(lots, market, 'volume lots'), ' for ', amountNode(pc, 'pc', market, 'volume pc')]],
    ['Takers’ fees', amountNode(fees, 'pc', market, 'volume fees')],
    ['Trades', counted(journal.trades.length, 'row')],
  ];
}

// The makers that a row met, from the replay, as a list of fills.
function fillNodes(shown, market, row) {
  const replay = shown.replay(market);
  const fills = replay === null || replay.why !== null ? undefined : replay.fillsOf.get(row);
  if (fills === undefined) return [];
  return [['Met', element('ul', { class: 'plain' }, fills.map(({ maker, lots, price, rebate }) => element('li', {},
    sizeNode(lots, market), ` at ${priceText(price, market)} of the `, orderNode(shown, market, maker), ' of ', addressNode(shown, maker.account),
    ', rebate ', amountNode(rebate, 'pc', market))))]];
}

// What filled: an order, a take, or a take that is a leg of a swap.
function tradeKind(shown, { row, isOrder }) {
  if (isOrder) return 'order';
  return shown.report.swaps.has(row) ? 'swap' : 'take';
}

// One trade's cells.
function tradeRow(shown, market, trade) {
  const deed = { bid: 'buy', ask: 'sell' }[trade.side] || '?';
  const whose = trade.signer === null ? [] : [addressNode(shown, trade.signer), trade.account === null ? '' : [' with ', addressNode(shown, trade.account)]];
  return {
    name: `trade ${trade.row}`,
    mark: trade.side || '',
    cells: [
      deed,
      element('a', { href: linkTo('journal', market.address, { row: trade.row }) }, trade.row),
      bareNode(sizeNode(trade.lots, market)),
      averageNode(trade.pc, trade.lots, market),
      amountNode(trade.pc, 'pc', market),
      amountNode(trade.fee, 'pc', market),
      tradeKind(shown, trade),
      whose,
    ],
    details: [...fillNodes(shown, market, trade.row), ...otherLegFacts(shown, market, trade.row)],
  };
}

/** The view of a market's trades; `words.row` is the row to choose. */
export function tradesView(shown, market, words) {
  const journal = shown.report.markets.get(market.address);
  if (journal === undefined) return [element('p', { class: 'empty' }, 'A dump tells no trades. A report does.')];
  const count = journal.trades.length;
  const numberOf = (at) => count - 1 - at;
  const table = tableWithDetails({
    label: `Trades of ${market.address}`,
    columns: [
      { title: 'Side', size: '3.5rem' },
      { title: 'Row', isNumber: true, size: '5rem' },
      { title: `Size (${sizeUnit(market)})`, short: 'Size', isNumber: true },
      { title: `Average price (${priceUnit(market)})`, short: 'Price', isNumber: true, size: '1.4fr' },
      { title: 'For', isNumber: true, size: '1.2fr', isWide: true },
      { title: 'Fee', isNumber: true, size: '1.2fr', isWide: true },
      { title: 'By', size: '4rem' },
      { title: 'Taker', size: '2fr', isWide: true },
    ],
    count,
    least: 820,
    empty: 'Nothing was traded.',
    linkOf: (at) => linkTo('trades', market.address, { row: journal.rows[journal.trades[numberOf(at)]] }),
    rowAt: (at) => tradeRow(shown, market, tradeAt(shown, market, journal, numberOf(at))),
  });
  const sought = words.row === undefined ? -1 : journal.trades.findIndex((at) => String(journal.rows[at]) === words.row);
  return [
    words.row === undefined ? null : seekRow(table, sought < 0 ? -1 : numberOf(sought), `trade of row ${words.row}`),
    facts(volumeFacts(shown, market)),
    section('Prices by row', priceChart(shown, market)),
    section(counted(count, 'trade'), element('p', { class: 'hint' }, 'The last one stands first. A trade is a row that filled something; its '
      + `price is the average over all that it met${shown.joined === null ? '.' : ', told below where a trade is chosen.'}`), table.node),
  ];
}
