// The rows of a script that are no instructions, in words.

import { decodeBase64, longAt, numberAt } from './bytes.js';
import { shortAddress } from './links.js';
import { grouped } from './units.js';

// Longer than any word of a row of the setup, its data too.
const LONGEST_WORD = 400;

// The lot sizes that the data of a market row says.
function lotsOfData(data) {
  const bytes = decodeBase64(data || '');
  if (bytes === null || bytes.length < 23) return '';
  return `, lots of ${grouped(longAt(bytes, 5))} and ${grouped(longAt(bytes, 13))} native, fee rate ${numberAt(bytes, 21, 2)}`;
}

const SETUP_WORDS = {
  program: ([name]) => `the program ${name} runs`,
  clock: ([now]) => `the clock is ${now} from here on`,
  mint: ([address, decimals]) => `a mint ${address} with ${decimals} decimals`,
  srm: ([mint]) => `${mint} is SRM`,
  msrm: ([mint]) => `${mint} is MSRM`,
  wallet: ([address, mint, owner, amount]) => `a wallet ${address} of ${owner} with ${grouped(amount)} native ${mint}`,
  market: ([address, coin, pc, authority, bids, asks, events, data]) => `a market ${address} of ${coin} for ${pc}, authority ${authority}, `
    + `${bids} and ${asks} nodes, room for ${events} events${lotsOfData(data)}`,
  orders: ([market, address]) => `an open-orders account ${address} on ${market}`,
  dump: () => 'accounts of a dump',
  enddump: () => 'the end of the dump',
};

/** A row that is no instruction, in words; null where it is one, or of no known kind. */
export function setupWords(fields) {
  const words = Object.hasOwn(SETUP_WORDS, fields[0]) ? SETUP_WORDS[fields[0]] : null;
  const shortened = (field = '') => (field.length > LONGEST_WORD ? `${field.slice(0, 60)}…` : shortAddress(field));
  return words === null ? null : words(fields.slice(1).map(shortened));
}
