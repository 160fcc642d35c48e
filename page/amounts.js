// Amounts, sizes and prices as elements: in tokens with the native amount under the pointer, or native with lots beside.

import { element } from './elements.js';
import { decimalText, grouped, isInTokens, priceText, sizeText, sizeUnit, symbolOf, tokensText, units } from './units.js';

/** A number as an element that also holds it as plain digits, by a name where it has one; a title tells what it is. */
export function numberNode(number, name = null, title = null) {
  return element('data', { 'value': String(number), 'data-name': name, title }, grouped(number));
}

/** A count of things in words. */
export function counted(count, one, many = `${one}s`) {
  return `${grouped(count)} ${Number(count) === 1 ? one : many}`;
}

// How many lots a native amount is, and what is left over; nothing is said of 0.
function lotsText(amount, lot, unit) {
  const size = amount < 0n ? -amount : amount;
  const rest = size % lot;
  if (size < lot) return size === 0n ? '' : `< 1 ${unit}`;
  return `${amount < 0n ? '-' : ''}${counted(size / lot, unit)}${rest === 0n ? '' : ` + ${grouped(rest)}`}`;
}

// The lots of a native amount of a token.
function lotsOf(amount, token, market) {
  return token === 'coin' ? lotsText(amount, market.coinLot, 'lot') : lotsText(amount, market.pcLot, 'pc lot');
}

// A value as it is shown, with its plain number, its unit beside, and what is under the pointer.
function valueNode({ text, number, unit, title, name }) {
  return element('span', { class: 'amount', title },
    element('data', { 'value': String(number), 'data-name': name }, text),
    unit === '' ? null : [' ', element('span', { class: 'lots' }, unit)]);
}

/** A value without its unit, where a column's title or a sentence has it. */
export function bareNode(node) { return element('span', { class: 'amount', title: node.title || null }, node.querySelector('data')); }

/** A native amount of base (`coin`) or quote (`pc`) of a market; without a token the native amount alone. */
export function amountNode(amount, token, market, name = null) {
  if (token === null || !market) return element('span', { class: 'amount' }, numberNode(amount, name));
  const lots = lotsOf(amount, token, market);
  if (!isInTokens(market)) return valueNode({ text: grouped(amount), number: amount, unit: lots, title: null, name });
  const title = `${grouped(amount)} native${lots === '' ? '' : `, ${lots}`}`;
  return valueNode({ text: tokensText(amount, token, market), number: amount, unit: symbolOf(token, market), title, name });
}

/** A number of base lots. */
export function sizeNode(lots, market, name = null) {
  const title = isInTokens(market) ? counted(lots, 'lot') : `${tokensText(lots * market.coinLot, 'coin', market)} ${symbolOf('coin', market)}`;
  const unit = isInTokens(market) ? sizeUnit(market) : '';
  return valueNode({ text: sizeText(lots, market), number: lots, unit, title: market.coinDecimals === null ? null : title, name });
}

/** A price, of pc lots per coin lot. */
export function priceNode(price, market, name = null) {
  const title = isInTokens(market) ? `${grouped(price)} pc lots per coin lot` : null;
  return valueNode({ text: priceText(price, market), number: price, unit: isInTokens(market) ? symbolOf('pc', market) : '', title, name });
}

/** Whether a mint is the base or the quote of a market, or neither. */
export function tokenOf(mint, market) {
  if (mint === market.coinMint) return 'coin';
  return mint === market.pcMint ? 'pc' : null;
}

/** A native amount of a mint: in tokens, or with the lots of its only market beside. */
export function mintAmountNode(shown, amount, mint, name = null) {
  const known = shown.exchange.mints.get(mint);
  if (!units.isNative && known !== undefined) {
    const unit = mint.length <= 10 ? mint : '';
    return valueNode({ text: decimalText(amount, Number(known.decimals)), number: amount, unit, title: `${grouped(amount)} native`, name });
  }
  const markets = [...shown.exchange.markets.values()].filter((market) => tokenOf(mint, market) !== null);
  if (markets.length !== 1) return amountNode(amount, null, null, name);
  return amountNode(amount, tokenOf(mint, markets[0]), markets[0], name);
}
