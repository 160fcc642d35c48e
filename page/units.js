// Units in which amounts, sizes and prices are shown: tokens, or native units with lots.

/** How amounts are shown now. */
export const units = { isNative: false };

// How many digits behind the point a price has at most where it does not end earlier.
const PLACES = 12;

/** The digits of a whole number in groups of three. */
export function grouped(number) {
  return String(number).replace(/\B(?=([0-9]{3})+$)/g, ',');
}

/** A whole number of 10^-decimals as a decimal number, without zeros at its end. */
export function decimalText(number, decimals) {
  const size = number < 0n ? -number : number;
  const digits = size.toString().padStart(decimals + 1, '0');
  const whole = grouped(digits.slice(0, digits.length - decimals));
  const part = digits.slice(digits.length - decimals).replace(/0+$/, '');
  return `${number < 0n ? '-' : ''}${whole}${part === '' ? '' : `.${part}`}`;
}

// A fraction as a decimal number; where it does not end it is rounded to eight digits that tell, with a sign in front.
function ratioText(numerator, denominator) {
  const scaled = numerator * 10n ** BigInt(PLACES);
  const value = scaled / denominator;
  if (scaled % denominator === 0n) return decimalText(value, PLACES);
  const cut = 10n ** BigInt(Math.max(0, Math.min(PLACES, value.toString().length - 8)));
  return `≈ ${decimalText(((value + cut / 2n) / cut) * cut, PLACES)}`;
}

// The decimals of a market's coin or pc; null where its mint is not there.
function decimalsOf(token, market) {
  return token === 'coin' ? market.coinDecimals : market.pcDecimals;
}

/** What a market's coin or pc is called: its mint's label where that is short, else coin or pc. */
export function symbolOf(token, market) {
  const mint = token === 'coin' ? market.coinMint : market.pcMint;
  return mint.length <= 10 ? mint : token;
}

/** Whether amounts of a market are shown in tokens. */
export function isInTokens(market) {
  return !units.isNative && market.coinDecimals !== null && market.pcDecimals !== null;
}

/** A native amount in tokens, as text. */
export function tokensText(amount, token, market) {
  return decimalText(amount, decimalsOf(token, market));
}

// A price as a fraction of pc tokens by coin tokens.
function priceRatio(price, market) {
  return [price * market.pcLot * 10n ** BigInt(market.coinDecimals), market.coinLot * 10n ** BigInt(market.pcDecimals)];
}

/** A price in tokens, as text. */
export function priceText(price, market) {
  return isInTokens(market) ? ratioText(...priceRatio(price, market)) : grouped(price);
}

/** A number of base lots in the units that are shown, as text without its unit. */
export function sizeText(lots, market) {
  return isInTokens(market) ? tokensText(lots * market.coinLot, 'coin', market) : grouped(lots);
}

/** The average price of native quote for base lots, as text. */
export function averageText(pc, lots, market) {
  if (!isInTokens(market)) return ratioText(pc, lots * market.pcLot);
  return ratioText(pc * 10n ** BigInt(market.coinDecimals), lots * market.coinLot * 10n ** BigInt(market.pcDecimals));
}

/** What a price is told in. */
export function priceUnit(market) {
  return isInTokens(market) ? `${symbolOf('pc', market)} per ${symbolOf('coin', market)}` : 'pc lots per coin lot';
}

/** What a size is told in. */
export function sizeUnit(market) { return isInTokens(market) ? symbolOf('coin', market) : 'lots'; }

/** The average price of native quote for base lots as a number for a drawing; it may be rounded. */
export function averageNumber(pc, lots, market) {
  if (!isInTokens(market)) return Number(pc) / Number(lots * market.pcLot);
  return (Number(pc) * 10 ** (market.coinDecimals - market.pcDecimals)) / Number(lots * market.coinLot);
}

/** A price as a number for a drawing; it may be rounded. */
export function priceNumber(price, market) {
  return isInTokens(market) ? (Number(price) * Number(market.pcLot) * 10 ** (market.coinDecimals - market.pcDecimals)) / Number(market.coinLot) : Number(price);
}

/** A number of base lots as a number for a drawing; it may be rounded. */
export function sizeNumber(lots, market) {
  return isInTokens(market) ? (Number(lots) * Number(market.coinLot)) / 10 ** market.coinDecimals : Number(lots);
}
