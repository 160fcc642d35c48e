// What may be named in a row: what the rows above declare, and the accounts of the last report.

// Adds what a setup row declares.
function noteRow(known, [kind, first, second, third, fourth]) {
  if (kind === 'mint') known.mints.add(first);
  if (kind === 'srm' || kind === 'msrm') known.discounts.add(first);
  if (kind === 'wallet') known.wallets.set(first, { mint: second, owner: third });
  if (kind === 'market') known.markets.set(first, { coin: second, pc: third, authority: fourth });
  if (kind === 'orders') known.accounts.set(second, { market: first, owner: null });
}

// Adds the setup rows of a text, which stand before its first instruction row.
function noteText(known, text) {
  let from = 0;
  while (from < text.length) {
    let end = text.indexOf('\n', from);
    if (end < 0) end = text.length;
    const line = text.slice(from, Math.min(end, from + 2000));
    if (/^(do|ix|swap),/.test(line)) return;
    noteRow(known, line.split(','));
    from = end + 1;
  }
}

// Adds the accounts of a report or dump.
function noteExchange(known, exchange) {
  for (const mint of exchange.mints.keys()) known.mints.add(mint);
  for (const mint of [exchange.srm, exchange.msrm]) if (mint !== null) known.discounts.add(mint);
  for (const { address, mint, owner } of exchange.wallets.values()) known.wallets.set(address, { mint, owner });
  for (const market of exchange.markets.values()) {
    known.markets.set(market.address, { coin: market.coinMint, pc: market.pcMint, authority: market.authority });
    for (const trader of market.traders.values()) known.accounts.set(trader.address, { market: market.address, owner: trader.owner || null });
  }
}

/** What is known of a text of rows beside the accounts of the last report, where there is one; labels stand by their words. */
export function knownOf(text, exchange) {
  const known = { mints: new Set(), discounts: new Set(), wallets: new Map(), markets: new Map(), accounts: new Map(), exchange };
  noteText(known, text);
  if (exchange !== null) noteExchange(known, exchange);
  return known;
}

/** Everybody who may sign: owners of wallets and accounts, and authorities. */
export function signersOf(known) {
  const signers = new Set([...known.wallets.values()].map(({ owner }) => owner));
  for (const { owner } of known.accounts.values()) if (owner !== null) signers.add(owner);
  for (const { authority } of known.markets.values()) signers.add(authority);
  return [...signers].filter((signer) => signer !== undefined && signer !== '');
}

/** Wallets of a mint, those of an owner first. */
export function walletsOf(known, mint, owner) {
  const wallets = [...known.wallets].filter(([, wallet]) => wallet.mint === mint);
  const own = ([, wallet]) => Number(wallet.owner !== owner);
  return wallets.sort((one, other) => own(one) - own(other)).map(([address]) => address);
}

/** The orders of an account that rest in the last report; all accounts' where none is named. */
export function restingOrders(known, market, account) {
  const found = known.exchange === null ? undefined : known.exchange.markets.get(market);
  if (found === undefined) return [];
  return [...found.bids.orders, ...found.asks.orders].filter(({ owner }) => account === '-' || owner === account);
}
