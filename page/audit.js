// The audit's rules over several accounts, all 13 kinds, by the accounts of a dump: each place where two accounts disagree, in the
// order in which ./dex audit tells them. What an account must be by itself is no finding and is not looked at here.

import { lockedBy, vaultSums, tradersOf } from './sums.js';

const LARGEST = (1n << 128n) - 1n;
const WORD_END = 1n << 64n;

// An amount as a finding tells it.
function capped(amount) { return amount > LARGEST ? LARGEST : amount; }

// An order as its id and side.
function orderKey({ id, isBid }) { return isBid ? `b${id}` : `a${id}`; }

// Whether an event ends its order: an out that leaves nothing locked.
function isLastOut(event) { return event.kind.endsWith('out') && event.paid === 0n; }

// The resting orders of a market with their side's address and their place in book order.
function restingOf(market) {
  return [[market.bids, 4], [market.asks, 5]].flatMap(([side, part]) => side.orders
    .map((order, place) => ({ order, place, account: market.addresses[part] })));
}

// Whether an address is an open account of a market.
function isOpen(market, address) {
  const trader = market.traders.get(address);
  return trader !== undefined && trader.state === 'open';
}

// Kind 1: resting orders of no open account.
function strayOrders(market) {
  return restingOf(market).filter(({ order }) => !isOpen(market, order.owner))
    .map(({ order, place, account }) => ({ kind: 1, account, place, found: 0n, wanted: order.id }));
}

// Kind 2: slots that do not hold the order that rests for them, the first such order of each slot.
function wrongSlots(market) {
  const firsts = new Map();
  for (const { order } of restingOf(market)) {
    const key = `${order.owner} ${order.slot}`;
    if (isOpen(market, order.owner) && !market.traders.get(order.owner).holds(order) && !firsts.has(key)) firsts.set(key, order);
  }
  const ranks = new Map([...market.traders.keys()].map((address, rank) => [address, rank]));
  return [...firsts.values()]
    .sort((one, other) => ranks.get(one.owner) - ranks.get(other.owner) || one.slot - other.slot)
    .map((order) => ({
      kind: 2, account: order.owner, place: order.slot, found: market.traders.get(order.owner).slotId(order.slot), wanted: order.id,
    }));
}

// The taken slots of a market's open accounts, by accounts and then slots.
function takenSlots(market) {
  return [...market.traders.values()].filter(({ state }) => state === 'open')
    .flatMap((trader) => trader.slots().map((order) => ({ order, account: trader.address })));
}

// How often each order rests or has a pending last out.
function endsOf(market) {
  const ends = new Map();
  const count = (order) => ends.set(orderKey(order), (ends.get(orderKey(order)) || 0) + 1);
  for (const { order } of restingOf(market)) count(order);
  for (const event of market.events.list) if (isLastOut(event)) count(event);
  return ends;
}

// Kind 3: taken slots whose order does not rest or end just once.
function wrongEnds(market) {
  const ends = endsOf(market);
  return takenSlots(market).filter(({ order }) => ends.get(orderKey(order)) !== 1)
    .map(({ order, account }) => ({ kind: 3, account, place: order.slot, found: BigInt(ends.get(orderKey(order)) || 0), wanted: 1n }));
}

// Kind 4: pending events that the slot of their owner does not hold, or that stand behind the last out of their order.
function wrongEvents(market) {
  const ended = new Set();
  const findings = [];
  market.events.list.forEach((event, place) => {
    const isKnown = isOpen(market, event.owner);
    const trader = market.traders.get(event.owner);
    if (!isKnown || !trader.holds(event) || ended.has(orderKey(event))) {
      const found = isKnown ? trader.slotId(event.slot) : 0n;
      findings.push({ kind: 4, account: market.addresses[3], place, found, wanted: event.id });
    }
    if (isLastOut(event)) ended.add(orderKey(event));
  });
  return findings;
}

// Kind 5: sequence numbers that were not given out yet.
function futureNumbers(market) {
  return takenSlots(market).filter(({ order }) => order.sequence >= market.nextSequence)
    .map(({ order, account }) => ({ kind: 5, account, place: order.slot, found: order.sequence, wanted: market.nextSequence }));
}

// Kind 6: sequence numbers that an earlier slot has.
function doubledNumbers(market) {
  const met = new Set();
  return takenSlots(market).filter(({ order }) => {
    const isMet = met.has(order.sequence);
    met.add(order.sequence);
    return isMet;
  }).map(({ order, account }) => ({ kind: 6, account, place: order.slot, found: 2n, wanted: 1n }));
}

// Kind 7: totals of open accounts that are not their parts' sums.
function wrongTotals(market) {
  const findings = [];
  for (const trader of tradersOf(market)) {
    if (trader.state !== 'open') continue;
    for (const [token, place] of [['coin', 85], ['pc', 101]]) {
      const sum = trader.free[token] + trader.resting[token] + trader.kept[token];
      if (trader.total[token] !== sum) findings.push({ kind: 7, account: trader.address, place, found: trader.total[token], wanted: capped(sum) });
    }
  }
  return findings;
}

// Kinds 8 to 10: words and amounts of a market that are not their parts' sums.
function wrongSums(market, kind) {
  const places = {
    8: [['coin_deposits_total', market.address, 149], ['pc_deposits_total', market.address, 197]],
    9: [['coin vault', market.addresses[0], 64], ['pc vault', market.addresses[1], 64]],
    10: [['referrer_rebates_accrued', market.address, 373]],
  }[kind];
  const sums = new Map(vaultSums(market).map((sum) => [sum.name, sum]));
  return places.map(([name, account, place]) => ({ kind, account, place, found: sums.get(name).found, wanted: capped(sums.get(name).sum) }))
    .filter(({ found, wanted }) => found !== wanted);
}

// Kind 11: vaults that pending makers' fills would bring to 2^64.
function fullVaults(market) {
  const pending = { coin: 0n, pc: 0n };
  for (const event of market.events.list) if (event.kind === 'maker fill') pending[event.isBid ? 'pc' : 'coin'] += event.paid;
  return [[market.coinVault.amount + pending.coin, 0], [market.pcVault.amount + pending.pc, 1]].filter(([amount]) => amount >= WORD_END)
    .map(([amount, part]) => ({ kind: 11, account: market.addresses[part], place: 64, found: capped(amount), wanted: WORD_END - 1n }));
}

// Kind 13: resting orders that lock 2^64 or more.
function largeOrders(market) {
  return restingOf(market).map(({ order, place, account }) => ({ account, place, locked: lockedBy(order, market) }))
    .filter(({ locked }) => locked >= WORD_END)
    .map(({ account, place, locked }) => ({ kind: 13, account, place, found: capped(locked), wanted: WORD_END - 1n }));
}

// Kind 12: mints whose supply is not what wallets and vaults hold.
function wrongSupplies(exchange) {
  const held = new Map();
  const add = ({ mint, amount }) => held.set(mint, (held.get(mint) || 0n) + amount);
  for (const wallet of exchange.wallets.values()) add(wallet);
  for (const market of exchange.markets.values()) [market.coinVault, market.pcVault].forEach(add);
  return [...exchange.mints.values()].map((mint) => ({
    kind: 12, account: mint.address, place: 36, found: mint.supply, wanted: capped(held.get(mint.address) || 0n),
  })).filter(({ found, wanted }) => found !== wanted);
}

/** The findings of all 13 kinds, in the audit's order. */
export function auditOf(exchange) {
  const markets = [...exchange.markets.values()];
  const sums = (kind) => (market) => wrongSums(market, kind);
  const ofMarkets = [strayOrders, wrongSlots, wrongEnds, wrongEvents, futureNumbers, doubledNumbers, wrongTotals, sums(8), sums(9), sums(10),
    fullVaults];
  return [...ofMarkets.flatMap((look) => markets.flatMap(look)), ...wrongSupplies(exchange), ...markets.flatMap(largeOrders)];
}

/** A finding as ./dex audit writes it. */
export function findingLine({ kind, account, place, found, wanted }) {
  return `finding ${kind} ${account} ${place} ${found} ${wanted}`;
}
