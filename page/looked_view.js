// Accounts of a ledger as they were given, of which some may be missing: each open-orders account with what is free, locked and owed, each
// market with its book, and which accounts would tell more.

import { amountNode, bareNode, counted, mintAmountNode, priceNode, sizeNode } from './amounts.js';
import { base58Of } from './base58.js';
import { element } from './elements.js';
import { facts, notice, section } from './parts.js';
import { levelsOf, owedBy } from './sums.js';
import { Table } from './table.js';
import { priceUnit, sizeUnit } from './units.js';

// An address as the ledger's tools print it.
function ledgerAddress(address) { return element('code', { class: 'address', title: address }, base58Of(address)); }

// What is missing, as a list of addresses; nothing where all is there.
function missingNode(missing, why) {
  if (missing.length === 0) return null;
  return element('div', { 'class': 'notice', 'data-name': 'missing' }, element('p', {}, why),
    element('ul', {}, missing.map(({ what, address }) => element('li', {}, `${what} `, ledgerAddress(address)))));
}

// An amount of base and one of quote.
function bothNode(pair, market, name) {
  const [coin, pc] = ['coin', 'pc'].map((token) => amountNode(pair[token], market === null ? null : token, market, `${name} ${token}`));
  const unit = (token) => (market === null || market.coinDecimals === null || market.pcDecimals === null ? ` native ${token}` : '');
  return [coin, unit('coin'), ' and ', pc, unit('pc')];
}

// What waiting events owe an account; where the queue is not there, that it is missing.
function owedNode(account) {
  const { market } = account;
  if (market === null || market.events === null) return 'not known without the event queue';
  const owed = { coin: 0n, pc: 0n };
  let count = 0;
  for (const event of market.events.list.filter(({ owner }) => owner === account.address)) {
    const some = owedBy(event);
    owed.coin += some.coin;
    owed.pc += some.pc;
    count += 1;
  }
  return [bothNode(owed, market, 'owed'), ` (${counted(count, 'waiting event')})`];
}

// An order of a slot: its side, price and client id, and what rests of it.
function slotNode(account, order) {
  const { market } = account;
  const side = market === null ? null : market[order.isBid ? 'bids' : 'asks'];
  const resting = side === null ? undefined : side.orders.find(({ id }) => id === order.id);
  const price = market === null ? `${order.price} pc lots per coin lot` : priceNode(order.price, market);
  const size = resting === undefined ? '' : [', ', sizeNode(resting.lots, market), ' rests'];
  const gone = side !== null && resting === undefined ? ', which left the book and waits for its last event' : '';
  return element('li', {}, order.isBid ? 'bid at ' : 'ask at ', price, size, gone, `, client id ${order.client}`);
}

// The accounts that would tell more of an open-orders account.
function wantedFor({ market, marketAddress }) {
  if (market === null) return [{ what: 'the market', address: marketAddress }];
  return market.missing.filter(({ what }) => !what.endsWith('vault') && what !== 'request queue');
}

// An open-orders account.
function ordersNode(account) {
  const title = ['Open-orders account ', ledgerAddress(account.address)];
  if (account.state === 'blank') return section(title, element('p', {}, 'It was never opened.'));
  const locked = { coin: account.total.coin - account.free.coin, pc: account.total.pc - account.free.pc };
  const missing = wantedFor(account);
  return section(title,
    facts([
      ['Owner', ledgerAddress(account.owner)],
      ['Market', ledgerAddress(account.marketAddress)],
      ['State', account.state],
      ['Free, to be settled', bothNode(account.free, account.market, 'free')],
      ['Locked by orders and their events', bothNode(locked, account.market, 'locked')],
      ['Owed by waiting events', owedNode(account)],
      ['Slots taken', `${account.taken} of 128`],
    ]),
    account.taken === 0 ? null : element('ul', {}, account.slots().map((order) => slotNode(account, order))),
    missingNode(missing, 'More would be told with these accounts, dropped here too:'));
}

// A market's book by price; what is missing of it.
function marketNode(market) {
  const sides = [market.bids, market.asks];
  const levels = sides[0] === null || sides[1] === null ? [] : [...levelsOf(sides[1]).reverse(), ...levelsOf(sides[0])];
  const table = new Table({
    label: `Book of ${base58Of(market.address).slice(0, 8)}`,
    columns: [
      { title: 'Side', size: '3.2rem' },
      { title: `Price (${priceUnit(market)})`, short: 'Price', isNumber: true, size: '1.3fr' },
      { title: `Size (${sizeUnit(market)})`, short: 'Size', isNumber: true },
      { title: 'Orders', isNumber: true, size: '3.4rem' },
    ],
    count: levels.length,
    least: 300,
    empty: sides.includes(null) ? 'The book is not known without both sides.' : 'Nothing rests.',
    rowAt: (at) => {
      const { isBid, price, lots, orders } = levels[at];
      const side = isBid ? 'bid' : 'ask';
      return { name: `${side} ${price} ${lots}`, mark: side, cells: [side, bareNode(priceNode(price, market)), bareNode(sizeNode(lots, market)), orders] };
    },
  });
  const waiting = market.events === null ? 'not known without the event queue' : counted(market.events.list.length, 'event');
  return section(['Market ', ledgerAddress(market.address)],
    facts([['State', market.isDisabled ? 'disabled' : 'trading'], ['Waiting', waiting]]), table.node,
    missingNode(market.missing, 'Of this market these accounts are missing:'));
}

// Token accounts, with their amounts.
function tokenNodes(shown, tokens) {
  if (tokens.length === 0) return null;
  const { markets } = shown.looked;
  const amount = ({ mint, amount: native }) => {
    const market = markets.find(({ coinMint, pcMint }) => [coinMint, pcMint].includes(mint));
    return market === undefined ? mintAmountNode(shown, native, mint) : amountNode(native, mint === market.coinMint ? 'coin' : 'pc', market);
  };
  return section('Token accounts', element('ul', {}, tokens.map((token) => element('li', {}, ledgerAddress(token.address), ' ', amount(token)))));
}

/** The view of accounts that were given as JSON. */
export function lookedView(shown) {
  const { markets, orders, tokens, faults, dump } = shown.looked;
  const own = new Set(markets.flatMap(({ addresses }) => addresses));
  const told = dump === null ? 'Where all accounts of a market are here, all views are.' : 'All accounts of a market are here, so the other views show it whole.';
  return [
    element('p', { class: 'hint' }, `${counted(shown.looked.accounts.size, 'account')} of a ledger. ${told}`),
    faults.map(notice),
    orders.map(ordersNode),
    markets.map(marketNode),
    tokenNodes(shown, tokens.filter(({ address }) => !own.has(address))),
  ];
}
