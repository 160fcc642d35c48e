// The lives of a market's orders: with the script each row of them, without it what journal, book and queue tell.

import { orderOfId } from './accounts.js';
import { BookReplay } from './book_replay.js';
import { REPLIES } from './replies.js';

/** Replays a market's journal with its script; null where the script is not there or the replay does not come out as the dump. */
export function replayOf(shown, market) {
  const journal = shown.report.markets.get(market.address);
  if (shown.joined === null || journal === undefined) return null;
  const start = shown.start === null ? undefined : shown.start.markets.get(market.address);
  const replay = new BookReplay({ market, exchange: shown.exchange, program: shown.joined.program, start });
  for (let at = 0; at < journal.count && replay.why === null; at += 1) {
    const { kind } = REPLIES[journal.kinds[at]];
    if (!['order', 'take', 'cancelled', 'consumed'].includes(kind)) continue;
    const entry = journal.at(at);
    replay.act(shown.askedBy(entry.row, market.address), kind, entry);
  }
  return replay.why === null ? replay.finish() : replay;
}

// A life as far as a report without its script tells it.
function toldLife(journal, id, resting, pending) {
  const at = journal.ofOrder.get(id);
  const entry = at === undefined ? null : journal.at(at);
  const isBid = entry === null ? (resting || pending[0]).isBid : (id & 0x8000000000000000n) !== 0n;
  const lots = resting === undefined ? 0n : resting.lots;
  let state = 'gone';
  if (resting !== undefined) state = 'rests';
  else if (pending.some((event) => event.kind.endsWith('out') && event.paid === 0n)) state = 'out pending';
  return {
    ...orderOfId(id, isBid), row: entry === null ? null : entry.row, asked: null, left: lots, state, steps: [],
    account: resting !== undefined || pending.length > 0 ? (resting || pending[0]).owner : null, client: (resting || pending[0] || {}).client,
    filled: entry === null ? null : entry.values.lots, slot: entry === null ? (resting || pending[0]).slot : Number(entry.values.slot),
    signer: null, type: null,
  };
}

// The lives that journal, book and queue tell by themselves.
function toldLives(shown, market) {
  const journal = shown.report.markets.get(market.address) || { ofOrder: new Map() };
  const resting = new Map([...market.bids.orders, ...market.asks.orders].map((order) => [order.id, order]));
  const pending = new Map();
  for (const event of market.events.list) pending.set(event.id, [...(pending.get(event.id) || []), event]);
  const ids = new Set([...journal.ofOrder.keys(), ...resting.keys(), ...pending.keys()]);
  return [...ids].map((id) => toldLife(journal, id, resting.get(id), pending.get(id) || []));
}

/** All orders of a market that the texts tell, by sequence number. */
export function livesOf(shown, market) {
  const replay = shown.replay(market);
  const lives = replay !== null && replay.why === null ? [...replay.orders.values()] : toldLives(shown, market);
  return lives.sort((one, other) => (one.sequence < other.sequence ? -1 : Number(one.sequence > other.sequence)));
}
