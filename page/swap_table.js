// Swaps as one: a table with a row for each, which tells both legs.

import { counted, numberNode } from './amounts.js';
import { element } from './elements.js';
import { addressNode, entryNode, linkTo } from './links.js';
import { section } from './parts.js';
import { replyTitle, sentenceNode } from './sentences.js';
import { isSwapDone } from './swaps.js';
import { Table } from './table.js';

/** The legs of a swap, each its market and entry: in the order of its row where the script is there, else as the report has the markets. */
export function legsInOrder(shown, row) {
  const legs = shown.report.swaps.get(row);
  const isTurned = shown.joined !== null && shown.joined.addresses[shown.joined.markets[row]] !== legs[0].address;
  return (isTurned ? [...legs].reverse() : legs).map(({ address, at }) => ({
    market: shown.exchange.markets.get(address), entry: shown.report.markets.get(address).at(at),
  }));
}

// A leg: its market, and what was answered there.
function legCell(shown, { market, entry }) {
  return [entryNode(market.address, entry.row), `, ${replyTitle(entry)}: `, sentenceNode(shown, market, entry)];
}

// One swap's cells.
function swapRow(shown, row) {
  const legs = legsInOrder(shown, row);
  const isDone = isSwapDone(shown.report, row);
  return {
    name: `swap ${row}`,
    mark: isDone ? '' : 'refused',
    cells: [
      element('a', { href: linkTo('journal', legs[0].market.address, { row }) }, numberNode(row)),
      legs[0].entry.lane,
      ...(shown.joined === null ? [] : [addressNode(shown, shown.joined.signerOf(row))]),
      isDone ? 'acted' : 'refused',
      ...legs.map((leg) => legCell(shown, leg)),
    ],
  };
}

/** Some swaps by their rows, as a part of a view; nothing where there are none. */
export function swapSection(shown, rows) {
  if (rows.length === 0) return null;
  const hasScript = shown.joined !== null;
  const [first, second] = hasScript ? ['First leg', 'Second leg'] : ['One leg', 'Other leg'];
  const sorted = [...rows].sort((one, other) => (one < other ? -1 : 1));
  const leg = (title) => ({ title, size: '2fr', isWide: true, lines: 3, narrowLines: 4 });
  const table = new Table({
    label: 'Swaps',
    columns: [
      { title: 'Row', isNumber: true, size: '4.2rem' },
      { title: 'Lane', isNumber: true, size: '3rem' },
      ...(hasScript ? [{ title: 'Signer', isWide: true, size: 'minmax(6.2rem, 0.6fr)' }] : []),
      { title: 'Came out', size: '5rem' },
      leg(first),
      leg(second),
    ],
    count: sorted.length,
    least: 820,
    rowAt: (at) => swapRow(shown, sorted[at]),
  });
  return section(counted(rows.length, 'swap'),
    element('p', { class: 'hint' }, 'A swap is two takes on two markets: both act, or neither does.'), table.node);
}
