// What traders have and what vaults must hold, summed from the accounts of a market alone.

/** What a pending event owes its owner, of base and of quote. */
export function owedBy(event) {
  const owed = { coin: 0n, pc: 0n };
  if (event.kind === 'maker fill') {
    owed[event.isBid ? 'coin' : 'pc'] += event.released;
    if (event.isBid) owed.pc += event.fee;
  }
  if (event.kind === 'releasing out') owed[event.isBid ? 'pc' : 'coin'] += event.released;
  return owed;
}

/** What a resting order locks, in native units of the token that it pays with. */
export function lockedBy(order, market) {
  return order.isBid ? order.price * order.lots * market.pcLot : order.lots * market.coinLot;
}

/** The referrer's part of a pending event's fee, which only a taker's fill has. */
export function referrerPartOf(event) {
  return event.kind === 'taker fill' ? event.fee / 5n : 0n;
}

// What a pending event keeps in its owner's totals: what an out unlocks, and what a maker's fill will pay or bring as a rebate.
function keptBy(event) {
  const kept = { coin: 0n, pc: 0n };
  if (event.kind === 'releasing out') kept[event.isBid ? 'pc' : 'coin'] += event.released;
  if (event.kind === 'maker fill') {
    kept[event.isBid ? 'pc' : 'coin'] += event.paid;
    if (event.isBid) kept.pc += event.fee;
  }
  return kept;
}

// Adds the amounts of one pair to another.
function addTo(pair, amounts) {
  pair.coin += amounts.coin;
  pair.pc += amounts.pc;
}

// A pair with nothing in it.
function nothing() { return { coin: 0n, pc: 0n }; }

/** Each account of a market with what rests, what is owed to it, how many orders rest and whether its totals add up. */
export function tradersOf(market) {
  const traders = new Map();
  for (const trader of market.traders.values()) {
    traders.set(trader.address, { ...trader, resting: nothing(), owed: nothing(), kept: nothing(), bids: 0, asks: 0 });
  }
  for (const order of [...market.bids.orders, ...market.asks.orders]) {
    const trader = traders.get(order.owner);
    if (trader === undefined) continue;
    trader.resting[order.isBid ? 'pc' : 'coin'] += lockedBy(order, market);
    trader[order.isBid ? 'bids' : 'asks'] += 1;
  }
  for (const event of market.events.list) {
    const trader = traders.get(event.owner);
    if (trader === undefined) continue;
    addTo(trader.owed, owedBy(event));
    if (trader.state === 'open' && trader.holds(event)) addTo(trader.kept, keptBy(event));
  }
  return [...traders.values()];
}

// A sum of parts beside what was found.
function sumOf(name, token, found, parts) {
  const sum = parts.reduce((total, part) => total + part.amount, 0n);
  return { name, token, found, parts, sum, difference: found - sum };
}

/** The vaults of a market, and its words of deposits and rebates, beside the parts that they must be the sums of. */
export function vaultSums(market) {
  const free = nothing();
  let referrers = 0n;
  for (const trader of market.traders.values()) {
    if (trader.state !== 'open') continue;
    addTo(free, trader.free);
    referrers += trader.referrer;
  }
  const owed = nothing();
  let pendingReferrers = 0n;
  for (const event of market.events.list) {
    addTo(owed, owedBy(event));
    pendingReferrers += referrerPartOf(event);
  }
  const locked = (side) => side.orders.reduce((total, order) => total + lockedBy(order, market), 0n);
  const parts = {
    coin: held(free.coin, 'asks', locked(market.asks), owed.coin),
    pc: held(free.pc, 'bids', locked(market.bids), owed.pc),
  };
  return [
    sumOf('coin vault', 'coin', market.coinVault.amount, [...parts.coin, partOf('coin_fees_accrued', market.coinFees)]),
    sumOf('pc vault', 'pc', market.pcVault.amount,
      [...parts.pc, partOf('pc_fees_accrued', market.pcFees), partOf('referrer_rebates_accrued', market.rebates)]),
    sumOf('referrer_rebates_accrued', 'pc', market.rebates,
      [partOf('referrer parts of accounts', referrers), partOf('a fifth of each pending taker fill’s fee', pendingReferrers)]),
    sumOf('coin_deposits_total', 'coin', market.coinDeposits, parts.coin),
    sumOf('pc_deposits_total', 'pc', market.pcDeposits, parts.pc),
  ];
}

// A named amount, of an account where it is one's.
function partOf(name, amount, account = undefined) { return { name, amount, account }; }

// What a vault holds for accounts, in three parts.
function held(free, side, locked, owed) {
  return [partOf('free amounts of accounts', free), partOf(`what resting ${side} lock`, locked), partOf('what pending events owe', owed)];
}

/** Each mint's supply beside the wallets and vaults that hold it. */
export function supplySums(exchange) {
  return [...exchange.mints.values()].map((mint) => {
    const parts = [];
    for (const wallet of exchange.wallets.values()) {
      if (wallet.mint === mint.address) parts.push(partOf('wallet', wallet.amount, wallet.address));
    }
    for (const market of exchange.markets.values()) {
      for (const [at, vault] of [market.coinVault, market.pcVault].entries()) {
        if (vault.mint === mint.address) parts.push(partOf('', vault.amount, market.addresses[at]));
      }
    }
    return { ...sumOf(`supply of ${mint.address}`, null, mint.supply, parts), account: mint.address };
  });
}

/** The levels of a side, best first: price, lots, orders, and the lots up to there. */
export function levelsOf(side) {
  const levels = [];
  let total = 0n;
  for (const order of side.orders) {
    let level = levels[levels.length - 1];
    if (level === undefined || level.price !== order.price) {
      level = { isBid: order.isBid, price: order.price, lots: 0n, orders: 0, total };
      levels.push(level);
    }
    total += order.lots;
    level.lots += order.lots;
    level.orders += 1;
    level.total = total;
  }
  return levels;
}
