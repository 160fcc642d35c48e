// What a person has over all markets: accounts, orders, funds, fees paid and rebates earned, what settling and a crank would pay now.

import { REPLIES } from './replies.js';
import { owedBy, referrerPartOf, tradersOf } from './sums.js';

/** All persons: owners of open-orders accounts and of wallets. */
export function personsOf(exchange) {
  const persons = new Set();
  for (const market of exchange.markets.values()) {
    for (const trader of market.traders.values()) if (trader.state !== 'blank') persons.add(trader.owner);
  }
  for (const wallet of exchange.wallets.values()) persons.add(wallet.owner);
  return [...persons].sort();
}

// Nothing paid, earned, deposited or settled yet.
function noDealings() {
  const nothing = () => ({ coin: 0n, pc: 0n });
  return { fees: 0n, takerLots: 0n, makerLots: 0n, rebates: 0n, rows: 0, deposited: nothing(), settled: nothing() };
}

// Adds what an accepted row did to its account's dealings.
function addEntry(dealings, shown, market, entry) {
  const kind = REPLIES[entry.kind].kind;
  const { values, moves } = entry;
  if (kind === 'settled') {
    dealings.settled.coin += values.coin;
    dealings.settled.pc += values.pc;
  }
  if (kind !== 'order') return;
  dealings.fees += values.fee;
  dealings.takerLots += values.lots;
  for (const { wallet, kind: what, amount } of moves) {
    const { mint } = shown.exchange.wallets.get(wallet);
    if (what === 'debit') dealings.deposited[mint === market.coinMint ? 'coin' : 'pc'] += amount;
  }
}

/** What each account of a market paid and earned, by its address; null where the script is not there. */
export function dealingsOf(shown, market) {
  const journal = shown.report.markets.get(market.address);
  const { joined } = shown;
  if (joined === null || journal === undefined) return null;
  const all = new Map([...market.traders.keys()].map((address) => [address, noDealings()]));
  for (let at = 0; at < journal.count; at += 1) {
    const dealings = all.get(joined.accountOf(journal.rows[at]));
    if (dealings === undefined) continue;
    dealings.rows += 1;
    if (journal.refusals[at] === 0 && ['order', 'settled'].includes(REPLIES[journal.kinds[at]].kind)) addEntry(dealings, shown, market, journal.at(at));
  }
  const replay = shown.replay(market);
  if (replay.why !== null) return all;
  for (const life of replay.orders.values()) {
    const dealings = all.get(life.account);
    if (dealings === undefined) continue;
    dealings.rebates += life.rebates;
    for (const step of life.steps) if (step.what === 'filled as maker') dealings.makerLots += step.lots;
  }
  return all;
}

// What a crank of all pending events would pay an account now, and how many events such a crank takes.
function crankOf(market, account) {
  const paid = { coin: 0n, pc: 0n, referrer: 0n, events: 0, ahead: 0 };
  market.events.list.forEach((event, place) => {
    if (event.owner !== account) return;
    const owed = owedBy(event);
    paid.coin += owed.coin;
    paid.pc += owed.pc;
    paid.referrer += referrerPartOf(event);
    paid.events += 1;
    paid.ahead = place + 1;
  });
  return paid;
}

/** What an account is worth by the page's own sum: what the market holds for it less deposits, plus what was settled; null without script. */
export function worthOf(shown, market, trader) {
  const all = shown.dealings(market);
  if (all === null) return null;
  if (trader.state === 'blank') return { coin: 0n, pc: 0n };
  const { deposited, settled } = all.get(trader.address);
  const worth = (token) => trader.free[token] + trader.resting[token] + trader.owed[token] - deposited[token] + settled[token];
  return { coin: worth('coin'), pc: worth('pc') };
}

/** The accounts of a person, over all markets, each with its sums and orders. */
export function accountsOf(shown, person) {
  return [...shown.exchange.markets.values()].flatMap((market) => tradersOf(market)
    .filter((trader) => trader.state !== 'blank' && trader.owner === person)
    .map((trader) => ({
      market,
      trader,
      orders: [...market.bids.orders, ...market.asks.orders].filter((order) => order.owner === trader.address),
      crank: crankOf(market, trader.address),
    })));
}

/** The takes that a person signed on a market: how many, and what they come to; null where the script is not there. */
export function takesOf(shown, market, person) {
  const journal = shown.report.markets.get(market.address);
  const { joined } = shown;
  if (joined === null || journal === undefined) return null;
  const place = joined.placed.get(person) || -1;
  const takes = { rows: 0, lots: 0n, pc: 0n, fee: 0n };
  for (const at of journal.trades) {
    if (REPLIES[journal.kinds[at]].kind !== 'take' || joined.signers[journal.rows[at]] !== place) continue;
    const { values } = journal.at(at);
    takes.rows += 1;
    for (const name of ['lots', 'pc', 'fee']) takes[name] += values[name];
  }
  return takes;
}

/** The rows of the swaps that a person signed; none where the script is not there. */
export function swapRowsOf(shown, person) {
  const { joined } = shown;
  return joined === null ? [] : [...shown.report.swaps.keys()].filter((row) => joined.signerOf(row) === person);
}
