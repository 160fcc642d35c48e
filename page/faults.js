// What commands say where they write no report, as docs/FORMATS.md tells it: statuses, faults of scripts with how to mend them, faults of
// dumps, findings of an audit.

import { hexOfAddress } from './base58.js';
import { legsOf } from './instructions.js';

// Faults of a script by their number: name, what the row has, how to mend it.
const SCRIPT_FAULTS = [
  null,
  ['BadCsv', 'a field has a byte that is no character from space to ~', 'Write fields with the characters from space to ~ alone.'],
  ['UnknownRow', 'the first field, the program or a word that must be one of a list is not known', 'Spell the row’s first field, the '
    + 'program, and words such as bid, ask, decrement, ioc as the tables have them; dump begins the first row only.'],
  ['FieldCount', 'there are more or fewer fields, or words, than the form has', 'Give each field and each word of the form, and no more: '
    + 'an absent wallet is -, and one space stands between two words.'],
  ['BadNumber', 'a field or word that must be a number or base64 text is none', 'Write numbers in decimal without sign and without zeros '
    + 'in front, within the field’s type; write DATA in base64 with its padding.'],
  ['BadLabel', 'a field or word that must be an address word is none', 'An address word is 1 to 24 of a to z, 0 to 9 and _, or 0x and 64 '
    + 'lower-case hexadecimal digits; a market’s address ends in a zero byte.'],
  ['UnknownLabel', 'it names a mint, market or wallet that no earlier row declares', 'Declare mints before wallets and markets, markets before '
    + 'accounts and instructions, and wallets before the rows that give them a role.'],
  ['Duplicate', 'it declares what an earlier row declares', 'Give each mint, wallet, market and account an address of its own, also apart from '
    + 'the seven of each market’s parts.'],
  ['OverLimit', 'it passes a limit', 'Keep to 16 mints, 256 wallets, 16 markets, 64 accounts of a market, 65,536 nodes of a side, 65,535 events, '
    + '100,000 instruction rows, lanes 0 to 15, 16 named accounts and 256 bytes of data.'],
  ['SetupRefused', 'what it sets up cannot be made', ''],
  ['BadSwap', 'the two legs of the swap do not go together', 'Give a swap two markets and name no wallet twice, so that each leg has wallets of its '
    + 'own; let both legs be SendTake.'],
  ['NoBatch', 'a swap row stands in a script for batch', 'Let a script with swap rows act by replay or run; or write its legs as two rows, which then no '
    + 'longer act both or neither.'],
];

// What a setup code says, and how to mend it.
const SETUP_CODES = [
  null,
  ['a setup row stands behind an instruction row or behind a dump', 'Put setup rows before the first instruction row; leave them out behind a dump.'],
  ['the discount mint has other decimals', 'Name a mint of 6 decimals srm, one of 0 decimals msrm.'],
  ['the supply of the mint would reach 2^64', 'Keep the sum of a mint’s wallets below 2^64.'],
  ['the two mints of the market are one', 'Give a market two mints.'],
  ['DATA is no InitializeMarket instruction with a fee rate below 100', 'Give DATA of an InitializeMarket instruction, its fee rate from 0 to 99.'],
  ['a side has no node, or the queue no room for an event', 'Give each side a node and the queue room for an event, at least.'],
  ['the program row does not stand first', 'Put the program row first, or first behind the dump.'],
];

// Why the legs of a swap row do not go together, by its fields; null where they do not tell.
function badSwapWords(fields) {
  if (fields.length !== 11) return null;
  const legs = legsOf(fields);
  const [first, second] = legs.map(({ market }) => hexOfAddress(market));
  if (first === second) return `both legs are on ${legs[0].market}`;
  const wallets = legs.flatMap(({ roles }) => [roles.coin, roles.pc]).filter((wallet) => wallet !== '-');
  const keys = wallets.map(hexOfAddress);
  const again = keys.findIndex((key, at) => keys.indexOf(key) < at);
  if (again >= 0) return `the wallet ${wallets[again]} is named twice`;
  const wrong = legs.findIndex(({ instruction }) => instruction !== null && instruction.name !== 'take');
  return wrong < 0 ? null : `the data of its ${['first', 'second'][wrong]} leg is ${legs[wrong].instruction.title}`;
}

/** What a refused script's row has, and how it is mended; `fields` are the row's, where they are known. */
export function scriptFaultWords(answer, fields = []) {
  const [name, what, remedy] = SCRIPT_FAULTS[answer.k] || [answer.name, 'the page knows no such fault', ''];
  const [setup, mending] = (answer.code !== undefined && SETUP_CODES[answer.code]) || [null, remedy];
  const told = name === 'BadSwap' && fields[0] === 'swap' ? badSwapWords(fields) : null;
  return { name, what: told || setup || what, remedy: mending };
}

/** Faults of a dump by their kind: name, what is wrong. */
export const DUMP_FAULTS = [
  null,
  ['Grammar', 'the row has none of the forms, names what no earlier row declares, has an address that is taken, passes a limit, or enddump is missing'],
  ['Size', 'the account has another length than its layout allows'],
  ['Padding', 'a byte of the text serum at the front or padding at the end differs'],
  ['Flags', 'the flags are not the account’s'],
  ['Field', 'an address, a mint, a lot size, or a word of the request queue is not what it must be'],
  ['Slab', 'the tree of the side is broken at this node'],
  ['Ring', 'the event queue’s head or count does not fit its capacity'],
  ['Event', 'a pending event has flags of no kind, a slot above 127 or a tier above 6'],
  ['Slots', 'a free amount is above its total, or two taken slots hold one order'],
  ['Token', 'a byte of a token account or mint is not what it must be, or its mint is not the one wanted'],
];

/** Findings of an audit by their kind: a short name, what disagrees, what was found and what was wanted. */
export const FINDINGS = [
  null,
  ['order of no account', 'A resting order is that of no open account of the market.', 'nothing', 'the order’s id'],
  ['slot without its order', 'An order rests for this slot, and the slot does not hold just its id, side and client id.',
    'the id in the slot', 'the order’s id'],
  ['order that did not end once', 'The order of this taken slot rests and ended, or neither, or one of both twice.',
    'how often it rests or ended', 'once'],
  ['event without its slot', 'The event’s owner is not open, its slot does not hold the order, or the order had ended before.',
    'the id in the slot', 'the event’s id'],
  ['sequence number not given out', 'The order of this taken slot has a sequence number that was not given out yet.', 'the sequence number', 'the next one'],
  ['sequence number twice', 'The order of this taken slot has the sequence number of an earlier taken slot.', 'slots with it', 'one'],
  ['total of an account', 'The total is not what is free, what its resting orders lock and what its pending events keep.', 'the total', 'the sum'],
  ['deposits of a market', 'The word of deposits is not what accounts have free, what rests and what pending events owe.', 'the word', 'the sum'],
  ['vault', 'The vault’s amount is not what the market must hold in it.', 'the amount', 'the sum'],
  ['referrer rebates', 'The word of referrer rebates is not the accounts’ referrer parts and those of pending takers’ fills.', 'the word', 'the sum'],
  ['bound of a vault', 'The vault’s amount with what pending makers’ fills still take reaches 2^64.', 'that amount', 'at most'],
  ['supply of a mint', 'The supply is not what the mint’s wallets and vaults hold.', 'the supply', 'the sum'],
  ['order that locks too much', 'A resting order locks 2^64 or more.', 'what it locks', 'at most'],
];

/** Answers of one line: what they begin with, the exit status, what they say. */
export const SHORT_ANSWERS = [
  ['usage', 1, 'The words of the command are none that the program knows.'],
  ['read failed', 4, 'The input could not be read.'],
  ['input too long', 6, 'More bytes were given than are read: 67,108,864, or 2^40 within the widest limits.'],
  ['no memory', 7, 'Memory was wanting.'],
];
