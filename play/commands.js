// The commands that the page offers, a line each. One whose function the module has not is not offered.

/**
 * `call` is the module's function, `reads` what it is handed (a script, a dump, or nothing), `gives` the text of status 0, and `numbers` the
 * words behind the command's name.
 */
export const COMMANDS = [
  { name: 'replay', call: 'dex_replay', reads: 'script', gives: 'report', numbers: [], says: 'all rows act, one after the other: the report' },
  { name: 'dump', call: 'dex_dump', reads: 'script', gives: 'dump', numbers: [], says: 'the accounts that the rows leave' },
  { name: 'worth', call: 'dex_worth', reads: 'script', gives: 'worth', numbers: [], says: 'what trading gained or lost each account' },
  { name: 'audit', call: 'dex_audit', reads: 'dump', gives: 'answer', numbers: [], says: 'whether the accounts agree with one another' },
  {
    name: 'migrate', call: 'dex_migrate', reads: 'dump', gives: 'dump', says: 'the same accounts with other sizes',
    numbers: [{ name: 'Nodes', bits: 32, most: 65536n, start: '909' }, { name: 'Events', bits: 32, most: 65535n, start: '2978' }],
  },
  {
    name: 'make', call: 'dex_make', reads: null, gives: 'script', says: 'the made script of a number',
    numbers: [{ name: 'Number', bits: 64, least: 0n, most: 18446744073709551615n, start: '7' }, { name: 'Rows', bits: 32, most: 20000n, start: '1000' }],
  },
  {
    name: 'bulk', call: 'dex_bulk', reads: null, gives: 'answer', says: 'a made script, replayed: its summary',
    numbers: [{ name: 'Number', bits: 64, least: 0n, most: 18446744073709551615n, start: '7' }, { name: 'Rows', bits: 32, most: 20000n, start: '1000' }],
  },
];

/** A word as a command's number, as the module takes it; null where it is none or not within its limits. */
export function numberOfWord(word, { bits, least = 1n, most }) {
  if (!/^(0|[1-9][0-9]{0,19})$/.test(word)) return null;
  const number = BigInt(word);
  if (number < least || number > most) return null;
  return bits === 64 ? BigInt.asIntN(64, number) : Number(number);
}
