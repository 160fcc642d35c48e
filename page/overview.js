// All markets at a glance: prices, volume, fees, rows and refusals, and what the audit finds.

import { amountNode, counted, mintAmountNode, numberNode, priceNode, sizeNode } from './amounts.js';
import { verdictNode } from './audit_view.js';
import { element } from './elements.js';
import { addressNode, linkTo } from './links.js';
import { facts, section } from './parts.js';
import { REFUSALS, REPLIES } from './replies.js';
import { swapSection } from './swap_table.js';
import { isSwapDone, refusedRows } from './swaps.js';
import { Table } from './table.js';
import { lastTrade } from './trades.js';
import { averageText, priceUnit } from './units.js';

// How many rows are swaps, and how many of them acted; nothing where there are none.
function swapCount(report) {
  const rows = [...report.swaps.keys()];
  const done = rows.filter((row) => isSwapDone(report, row)).length;
  return rows.length === 0 ? [] : [['Swaps', [numberNode(rows.length, 'swaps'), ', of which ', numberNode(done, 'swaps done'), ' acted']]];
}

// What the journals say in all.
function rowFacts(shown) {
  const { report, exchange } = shown;
  const journals = [...report.markets.values()];
  const sum = (count) => journals.reduce((total, journal) => total + count(journal), 0);
  const sizes = [
    ['Markets', numberNode(exchange.markets.size)],
    ['Wallets', numberNode(exchange.wallets.size)],
    ['Accounts', numberNode([...exchange.markets.values()].reduce((total, market) => total + market.traders.size, 0))],
  ];
  if (report.kind === 'dump') return [...sizes, ['Rows', 'a dump tells none']];
  return [
    ['Rows', numberNode(report.rows, 'rows')],
    ['Accepted', numberNode(report.rows - refusedRows(report), 'accepted')],
    ['Refused', numberNode(refusedRows(report), 'refused')],
    ...swapCount(report),
    ['Trades', numberNode(sum((journal) => journal.trades.length), 'trades')],
    ...sizes,
  ];
}

// A link into a view of a market.
function into(view, market, text, words = {}) {
  return element('a', { href: linkTo(view, market.address, words) }, text);
}

// One market's cells.
function marketRow(shown, market) {
  const journal = shown.report.markets.get(market.address);
  const last = lastTrade(shown, market);
  const [bid, ask] = [market.bids.orders[0], market.asks.orders[0]];
  const none = '–';
  return {
    name: `overview ${market.address}`,
    cells: [
      [addressNode(shown, market.address), market.isDisabled ? ' disabled' : ''],
      [bid === undefined ? none : priceNode(bid.price, market), ' / ', ask === undefined ? none : priceNode(ask.price, market)],
      last === null ? none : into('trades', market, averageText(last.pc, last.lots, market)),
      journal === undefined ? none : sizeNode(journal.volume.lots, market, `volume of ${market.address}`),
      journal === undefined ? none : amountNode(journal.volume.fees, 'pc', market, `fees of ${market.address}`),
      amountNode(market.pcFees, 'pc', market),
      journal === undefined ? none : into('journal', market, numberNode(journal.count, `rows of ${market.address}`)),
      journal === undefined ? none : into('journal', market, numberNode(journal.refused, `refused of ${market.address}`), { kind: 'refused' }),
      `${market.bids.orders.length} / ${market.asks.orders.length}`,
      into('events', market, numberNode(market.events.list.length)),
    ],
    details: [
      ['Coin and pc', [addressNode(shown, market.coinMint), ' for ', addressNode(shown, market.pcMint)]],
      ['Prices are in', priceUnit(market)],
    ],
  };
}

// The table of all markets.
function marketTable(shown) {
  const markets = [...shown.exchange.markets.values()];
  return new Table({
    label: 'Markets',
    columns: [
      { title: 'Market', isWide: true, size: '1.1fr' },
      { title: 'Best bid / ask', isWide: true, size: '1.6fr' },
      { title: 'Last trade', size: '1fr' },
      { title: 'Volume', isNumber: true, isWide: true, size: '1.2fr' },
      { title: 'Takers’ fees', isNumber: true, isWide: true, size: '1.2fr' },
      { title: 'pc_fees_accrued', isNumber: true, isWide: true, size: '1.2fr' },
      { title: 'Rows', isNumber: true, size: '4rem' },
      { title: 'Refused', isNumber: true, size: '4.2rem' },
      { title: 'Bids / asks', size: '4.6rem' },
      { title: 'Events', isNumber: true, size: '3.8rem' },
    ].map((column) => ({ ...column, lines: 2, narrowLines: 1 })),
    count: markets.length,
    least: 1000,
    empty: 'There are no markets.',
    rowAt: (at) => marketRow(shown, markets[at]),
  });
}

// How often each reply was given, by market.
function replyCounts(shown) {
  const counts = new Map();
  for (const [address, journal] of shown.report.markets) {
    for (let at = 0; at < journal.count; at += 1) {
      const key = `${journal.refusals[at]} ${journal.kinds[at]} ${address}`;
      counts.set(key, (counts.get(key) || 0) + 1);
    }
  }
  return [...counts].map(([key, count]) => {
    const [refusal, kind, address] = key.split(' ');
    return { refusal: Number(refusal), kind: Number(kind), market: shown.exchange.markets.get(address), count };
  }).sort((one, other) => one.refusal - other.refusal || one.kind - other.kind);
}

// The table of replies and refusals.
function replyTable(shown) {
  const counts = replyCounts(shown);
  return new Table({
    label: 'Replies and refusals',
    columns: [{ title: 'Reply', size: '1.4fr', isWide: true }, { title: 'Market', isWide: true }, { title: 'Rows', isNumber: true, size: '6rem' }],
    count: counts.length,
    empty: 'There are no rows.',
    rowAt: (at) => {
      const { refusal, kind, market, count } = counts[at];
      const name = refusal === 0 ? REPLIES[kind].title : `${refusal} ${REFUSALS[refusal].name}`;
      const words = refusal === 0 ? { kind: REPLIES[kind].kind } : { refusal };
      return {
        name: `reply ${name} ${market.address}`,
        mark: refusal > 0 ? 'refused' : '',
        cells: [into('journal', market, name, words), addressNode(shown, market.address), numberNode(count)],
      };
    },
  });
}

/** The view of all markets. */
export function overview(shown) {
  const mints = [...shown.exchange.mints.values()];
  return [
    verdictNode(shown),
    facts(rowFacts(shown)),
    section('Markets', marketTable(shown).node),
    swapSection(shown, [...shown.report.swaps.keys()]),
    element('div', { class: 'beside' },
      shown.report.kind === 'dump' ? null : section('Replies and refusals', replyTable(shown).node),
      section('Mints', facts(mints.map((mint) => [addressNode(shown, mint.address),
        [mintAmountNode(shown, mint.supply, mint.address), `, ${counted(mint.decimals, 'decimal')}`]])))),
  ];
}
