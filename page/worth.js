// The table of worth: what each account of each market is worth in coin and pc, as the command worth writes it.

import { frontOf, isAddress, LineFault, wordsOfLine } from './text.js';

/** Whether a text begins as a table of worth does. */
export function isWorth(text) { return /^worth [0-9]+\r?(\n|$)/.test(text); }

// Whether a word is a whole number that may stand below zero.
function isSum(word) { return word !== undefined && /^(0|-?[1-9][0-9]{0,38})$/.test(word); }

/** Reads the table of worth; throws at its line what is wrong with it. */
export function readWorth(lines) {
  const markets = Number(lines.at(1).split(' ')[1]);
  const rows = [];
  const seen = new Set();
  for (let number = 2; number < lines.count; number += 1) {
    const [word, market, account, coin, pc, more] = wordsOfLine(lines.at(number));
    const isRow = word === 'trader' && isAddress(market) && isAddress(account) && isSum(coin) && isSum(pc) && more === undefined;
    if (!isRow) throw new LineFault(number, `A line is wanted that reads trader MARKET ACCOUNT COIN PC; here stands ${frontOf(lines.at(number))}.`);
    if (seen.has(`${market} ${account}`)) throw new LineFault(number, `The account ${account} of ${market} stands above already.`);
    seen.add(`${market} ${account}`);
    rows.push({ market, account, coin: BigInt(coin), pc: BigInt(pc) });
  }
  if (lines.at(lines.count) !== 'end' || !lines.isEnded) {
    throw new LineFault(lines.count, `The line end is wanted, with a line feed behind it; here stands ${frontOf(lines.at(lines.count))}.`);
  }
  return { markets, rows };
}

/** Why a table of worth is not that of a report; null where it may be. */
export function strayWorth(worth, exchange) {
  if (worth.markets !== exchange.markets.size) return `it tells of ${worth.markets} markets, and here are ${exchange.markets.size}`;
  const accounts = [...exchange.markets.values()].reduce((sum, market) => sum + market.traders.size, 0);
  const stray = worth.rows.find(({ market, account }) => !exchange.markets.has(market) || !exchange.markets.get(market).traders.has(account));
  if (stray !== undefined) return `here is no account ${stray.account} of a market ${stray.market}`;
  return worth.rows.length === accounts ? null : `it has ${worth.rows.length} accounts, and here are ${accounts}`;
}
