// A market's trades, one for each row that filled something, from the front of its journal.

import { tokenOf } from './amounts.js';
import { REPLIES } from './replies.js';

// The side of a take, by what it moved: it pays one token and gets the other; null where the moves do not tell.
function sideOfTake(shown, market, entry) {
  for (const { wallet, kind } of entry.moves) {
    const token = tokenOf(shown.exchange.wallets.get(wallet).mint, market);
    if (token === 'coin' && kind !== 'probe') return kind === 'credit' ? 'bid' : 'ask';
    if (token === 'pc' && kind !== 'probe') return kind === 'debit' ? 'bid' : 'ask';
  }
  return null;
}

/** The trade of a number, from 0: its row, the taker's side, lots, quote, fee, and whose it was where the script tells. */
export function tradeAt(shown, market, journal, number) {
  const at = journal.trades[number];
  const entry = journal.at(at);
  const isOrder = REPLIES[entry.kind].kind === 'order';
  const asked = shown.askedBy(entry.row, market.address);
  let side = isOrder ? ((entry.values.id & 0x8000000000000000n) !== 0n ? 'bid' : 'ask') : sideOfTake(shown, market, entry);
  if (asked !== null && asked.instruction !== null) ({ side } = asked.instruction);
  return {
    at, entry, row: entry.row, side, isOrder, asked, lots: entry.values.lots, pc: entry.values.pc, fee: entry.values.fee,
    signer: asked === null ? null : asked.signer, account: asked === null || !isOrder ? null : asked.named[0],
  };
}

/** The last trade; null where there is none. */
export function lastTrade(shown, market) {
  const journal = shown.report.markets.get(market.address);
  return journal === undefined || journal.trades.length === 0 ? null : tradeAt(shown, market, journal, journal.trades.length - 1);
}

/** The price of the last fill, which only the script tells where the last row met several orders; null where it is not known. */
export function lastFillPrice(shown, market) {
  const last = lastTrade(shown, market);
  const replay = last === null ? null : shown.replay(market);
  const fills = replay === null || replay.why !== null ? undefined : replay.fillsOf.get(last.row);
  return fills === undefined || fills.length === 0 ? null : fills[fills.length - 1].price;
}

/** The spread of a book: in pc lots per coin lot, and in hundredths of a basis point of the middle; null where a side is empty. */
export function spreadOf(market) {
  const [bid, ask] = [market.bids.orders[0], market.asks.orders[0]];
  if (bid === undefined || ask === undefined) return null;
  const units = ask.price - bid.price;
  return { units, basis: (units * 2n * 1000000n) / (ask.price + bid.price) };
}
