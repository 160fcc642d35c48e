// The views of the page as fragments of its address, and links to them.

import { element } from './elements.js';
import { priceText } from './units.js';

/** The fragment of a view: its name, what it shows, and further words such as filters. */
export function linkTo(view, subject = '', words = {}) {
  const query = new URLSearchParams(Object.entries(words).filter(([, value]) => value !== null && value !== '')).toString();
  return `#${view}${subject === '' ? '' : `/${subject}`}${query === '' ? '' : `?${query}`}`;
}

// A part of a fragment without its percent signs; null where these are no characters.
function decoded(text) {
  try {
    return decodeURIComponent(text);
  } catch {
    return null;
  }
}

/** What a fragment asks for; `isBroken` where its signs are none that a link of the page has. */
export function readLink(fragment) {
  const [path, query = ''] = fragment.replace(/^#/, '').split('?');
  const [view, subject] = [...path.split('/'), ''].slice(0, 2).map(decoded);
  return { view, subject, words: Object.fromEntries(new URLSearchParams(query)), isBroken: view === null || subject === null };
}

/** An address as it is printed, shortened where it has no label; nothing where a row has none. */
export function shortAddress(address = '') {
  return address.startsWith('0x') && address.length === 66 ? `${address.slice(0, 6)}…${address.slice(-4)}` : address;
}

/** What an address is called: its label, what it is of which market where it is a market's part, else its front and end. */
export function nameOf(shown, address) {
  const account = shown.exchange.accounts.get(address);
  const { vaultOwners } = shown.exchange;
  if (account === undefined && vaultOwners.has(address)) return `${shortAddress(vaultOwners.get(address))}’s vault owner`;
  if (account === undefined || account.market === null) return shortAddress(address);
  return `${shortAddress(account.market)}’s ${account.part}`;
}

/** The fragment of the view that shows an address best; null where no account has it. */
export function linkOfAddress(shown, address) {
  if (shown.exchange.wallets.has(address)) return linkTo('wallets', address);
  if (shown.exchange.markets.has(address)) return linkTo('book', address);
  if (shown.exchange.accounts.has(address)) return linkTo('bytes', address);
  return shown.isOwner(address) ? linkTo('owners', address) : null;
}

/** An address as a link to what it is the address of, or to the owner that it is. */
export function addressNode(shown, address) {
  const href = linkOfAddress(shown, address);
  const name = nameOf(shown, address);
  return element(href === null ? 'span' : 'a', { class: 'address', href, title: address === name ? null : address }, name);
}

/** The fragment of an order's life; null where the text tells nothing of it. */
export function linkOfOrder(shown, market, id) {
  const journal = shown.report.markets.get(market.address);
  const isTold = (journal !== undefined && journal.ofOrder.has(id))
    || [market.bids.orders, market.asks.orders, market.events.list].some((list) => list.some((order) => order.id === id));
  return isTold ? linkTo('orders', market.address, { id }) : null;
}

/** An order by its side, price and sequence number, as a link to its life. */
export function orderNode(shown, market, order) {
  const href = linkOfOrder(shown, market, order.id);
  const text = `${order.isBid ? 'bid' : 'ask'} at ${priceText(order.price, market)}, sequence number ${order.sequence}`;
  return element(href === null ? 'span' : 'a', { href, title: `order id ${order.id}, ${order.price} pc lots per coin lot` }, text);
}

/** The row of a journal as a link. */
export function rowNode(market, row) {
  return element('a', { href: linkTo('journal', market, { row }) }, `row ${row}`);
}

/** A market by its address, as a link to the entry of a row in its journal. */
export function entryNode(market, row) {
  const name = shortAddress(market);
  return element('a', { class: 'address', href: linkTo('journal', market, { row }), title: market === name ? null : market }, name);
}
