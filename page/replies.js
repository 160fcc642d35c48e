// The lines of journals: what a row was answered, and what it did to the wallets that it names.

import { REFUSAL_VALUES } from './tables.js';
import { exactNumber, isAddress, isNumber, isTime, wordsOfLine } from './text.js';

/** What rows are answered, each with the names of its numbers. Two are no words of a line: a refusal, and a take that was held back. */
export const REPLIES = [
  { kind: 'order', title: 'Order', values: ['id', 'slot', 'lots', 'pc', 'fee', 'rested'] },
  { kind: 'take', title: 'Take', values: ['lots', 'pc', 'fee'] },
  { kind: 'cancelled', title: 'Cancel', values: ['count'] },
  { kind: 'consumed', title: 'Crank', values: ['count'] },
  { kind: 'settled', title: 'Settle', values: ['coin', 'pc', 'referrer'] },
  { kind: 'swept', title: 'Sweep', values: ['pc'] },
  { kind: 'done', title: 'Done', values: [] },
  { kind: 'held', title: 'Held back', values: [] },
  { kind: 'refused', title: 'Refused', values: [] },
];

/** The place of a take that was held back because the other leg of its swap was refused; its line says `ok done`. */
export const HELD = 7;
/** The kind of a reply that says no more than that it was done. */
export const DONE = REPLIES.findIndex(({ kind }) => kind === 'done');
const REFUSED = 8;

// What each refusal says, from 1 on; values stand in braces.
const SENTENCES = [
  'The data is no instruction: it breaks rule {rule}, {rule_says}.',
  'The market is disabled.',
  'No account is named, the first named one is none of the market’s or not open where it has to be, '
    + 'or a wallet that is used is not named.',
  'The account was opened before, or the row makes a market.',
  'The signer is not the owner of the account, who is {owner}.',
  'The signer is not the authority of the market, which is {authority}.',
  'A wallet holds {mint}, which is not the mint that its role asks for.',
  'A wallet that pays, or the discount wallet, is {owner}’s, who is not the signer.',
  'The account to be closed has {slots} slots taken, and funds of {funds} in all.',
  'All 128 slots of the account are taken.',
  'The base of the ask is 2^64 or more.',
  'The next sequence number is 2^64 - 1.',
  'The clock is {clock}, past the latest time of the order, {latest}.',
  'The order rests on neither side.',
  'The order rests on the other side.',
  'The order rests for another account, {account}.',
  'The client id is 0.',
  'No resting order of the account has the client id.',
  'The order would meet an own order, {order}, and has to abort.',
  'The take would get {filled}, which is below the minimum that it names.',
  'The row makes {events} events, and the event queue has room for {free}.',
  'The deposit is {deposit}, and the wallet that pays holds {balance}: short by {wanting}.',
  'A wallet holds {balance}, and {credit} more would make 2^64 or above.',
  'The vault would hold {vault} and pending fills pay {pending}, together 2^64 or above.',
];

/** Refusals by their numbers: the name, the names of the values, and a sentence. */
export const REFUSALS = [
  null,
  ...REFUSAL_VALUES.map(([name, values], at) => ({ name, values: values === '' ? [] : values.split(' '), sentence: SENTENCES[at] })),
];

/** The rules that data can break, by their numbers. */
export const DATA_RULES = [
  null,
  ['Short', 'there are fewer than 5 bytes'],
  ['Version', 'the first byte is not 0'],
  ['UnknownTag', 'no instruction has the tag'],
  ['RetiredTag', 'the tag is that of an instruction that went'],
  ['Length', 'the body has another length than its instruction’s'],
  ['ZeroField', 'a price, a quantity or a lot size is 0'],
  ['BadEnum', 'a side, a self-trade rule or an order type is none'],
];

const ADDRESS_VALUES = ['owner', 'authority', 'mint', 'account'];

// Whether a word may be the value of a name.
function isValue(name, word) {
  if (ADDRESS_VALUES.includes(name)) return isAddress(word);
  return name === 'clock' || name === 'latest' ? isTime(word) : isNumber(word);
}

// Takes the values of some names from words at a place; null where a word is none.
function takeValues(names, words, at) {
  const values = {};
  for (const [place, name] of names.entries()) {
    const word = words[at + place];
    if (!isValue(name, word)) return null;
    values[name] = ADDRESS_VALUES.includes(name) ? word : BigInt(word);
  }
  return values;
}

// What stands in a refusal: its number, name and values, and how many words they are.
function takeRefusal(words) {
  const number = isNumber(words[4]) ? Number(words[4]) : 0;
  const refusal = REFUSALS[number];
  if (!refusal || refusal.name !== words[5]) return null;
  const values = takeValues(refusal.values, words, 6);
  return values && { kind: REFUSED, refusal: number, values, next: 6 + refusal.values.length };
}

// What stands in an accepted row's reply.
function takeAnswer(words) {
  const kind = REPLIES.findIndex((reply) => reply.kind === words[4]);
  if (kind < 0 || kind >= HELD) return null;
  const values = takeValues(REPLIES[kind].values, words, 5);
  return values && { kind, refusal: 0, values, next: 5 + REPLIES[kind].values.length };
}

// What happened to a wallet: three words from a place on.
function takeMove(words, at) {
  const [kind, amount, before] = words.slice(at, at + 3);
  if (!['probe', 'debit', 'credit'].includes(kind) || !isNumber(amount) || !isNumber(before)) return null;
  if ((kind === 'probe') !== (amount === '0')) return null;
  const sign = { probe: 0n, debit: -1n, credit: 1n }[kind];
  const after = BigInt(before) + sign * BigInt(amount);
  if (after < 0n) return null;
  return { kind, amount: BigInt(amount), before: BigInt(before), after };
}

// How many wallets a row can name: one a role.
const MOST_WALLETS = 4;

// Whether a word is the number of a lane.
function isLane(word) { return isNumber(word) && Number(word) < 16; }

/** What a line `entry LANE ROW REPLY MOVES` says; null where it is none. */
export function readEntry(line) {
  const words = wordsOfLine(line);
  if (words[0] !== 'entry' || !isLane(words[1]) || !isNumber(words[2])) return null;
  let answer = null;
  if (words[3] === 'ok') answer = takeAnswer(words);
  if (words[3] === 'refused') answer = takeRefusal(words);
  if (answer === null || (words.length - answer.next) % 4 !== 0 || words.length > answer.next + 4 * MOST_WALLETS) return null;
  const moves = [];
  for (let at = answer.next; at < words.length; at += 4) {
    const move = takeMove(words, at + 1);
    if (move === null || !isAddress(words[at])) return null;
    moves.push({ wallet: words[at], ...move });
  }
  return { lane: Number(words[1]), row: exactNumber(words[2]), kind: answer.kind, refusal: answer.refusal, values: answer.values, moves };
}

/** What a line `move MARKET LANE ROW KIND AMOUNT BEFORE` says; null where it is none. */
export function readMove(line) {
  const words = wordsOfLine(line);
  if (words.length !== 7 || words[0] !== 'move' || !isAddress(words[1]) || !isLane(words[2]) || !isNumber(words[3])) return null;
  const move = takeMove(words, 4);
  return move && { market: words[1], lane: Number(words[2]), row: exactNumber(words[3]), ...move };
}
