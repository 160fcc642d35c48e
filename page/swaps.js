// Swaps: two takes of one row on two markets, which act both or not at all. A report has an entry of the row in the journal of each.

import { DONE, HELD } from './replies.js';
import { LineFault } from './text.js';

// The rows that have an entry in more than one place.
function rowsMetAgain(markets) {
  const met = new Set();
  const again = new Set();
  for (const { rows } of markets.values()) for (const row of rows) (met.has(row) ? again : met).add(row);
  return again;
}

// The legs of each of some rows: its market's address, and the place of its entry in that market's journal.
function legsOfRows(markets, wanted) {
  const legs = new Map([...wanted].map((row) => [row, []]));
  for (const [address, { rows }] of markets) {
    rows.forEach((row, at) => { if (wanted.has(row)) legs.get(row).push({ address, at }); });
  }
  return legs;
}

// What is wrong with entries of one row is told at the last of them: two may be, on two markets, of one lane.
function checkLegs(markets, row, legs) {
  const [first, second] = legs;
  const lane = ({ address, at }) => markets.get(address).lanes[at];
  if (legs.length === 2 && first.address !== second.address && lane(first) === lane(second)) return;
  const { address, at } = legs[legs.length - 1];
  throw new LineFault(markets.get(address).first + at, `Row ${row} has an entry above already. A row has one entry, and a swap one in each of two `
    + 'markets’ journals, both of one lane.');
}

// A leg that was answered Done where the other one was refused was held back.
function markHeld(markets, [one, other]) {
  const journal = markets.get(one.address);
  if (journal.kinds[one.at] === DONE && markets.get(other.address).refusals[other.at] > 0) journal.kinds[one.at] = HELD;
}

/** The legs of each swap, in the order of the markets, by the swap's row; takes that were held back are marked in their journals. */
export function pairLegs(markets) {
  const swaps = legsOfRows(markets, rowsMetAgain(markets));
  for (const [row, legs] of swaps) {
    checkLegs(markets, row, legs);
    markHeld(markets, legs);
    markHeld(markets, [...legs].reverse());
  }
  return swaps;
}

/** A swap's other leg than the one on a market: its market's address and the place of its entry; null where the row is no swap. */
export function otherLeg(report, row, address) {
  const legs = report.swaps.get(row);
  return legs === undefined ? null : legs.find((leg) => leg.address !== address);
}

/** Whether a swap acted: neither of its legs was refused. */
export function isSwapDone(report, row) {
  return report.swaps.get(row).every(({ address, at }) => report.markets.get(address).refusals[at] === 0);
}

/** How many rows were refused; a swap is where one of its legs is. */
export function refusedRows(report) {
  let count = 0;
  for (const journal of report.markets.values()) count += journal.refused;
  for (const legs of report.swaps.values()) if (legs.every(({ address, at }) => report.markets.get(address).refusals[at] > 0)) count -= 1;
  return count;
}
