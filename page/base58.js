// Addresses in base58, as the ledger's tools print them.

const LETTERS = '123456789ABCDEFGHJKLMNPQRSTUVWXYZabcdefghijkmnopqrstuvwxyz';

/** The hexadecimal digits of an address, from its label or its digits. */
export function hexOfAddress(address) {
  if (address.length === 66 && address.startsWith('0x')) return address.slice(2);
  let digits = '';
  for (let at = 0; at < address.length; at += 1) digits += address.charCodeAt(at).toString(16).padStart(2, '0');
  return digits.padEnd(64, '0');
}

/** An address in base58: big-endian, a leading 1 for each leading zero byte. */
export function base58Of(address) {
  const hex = hexOfAddress(address);
  let rest = BigInt(`0x${hex}`);
  let text = '';
  while (rest > 0n) {
    text = LETTERS[Number(rest % 58n)] + text;
    rest /= 58n;
  }
  const zeros = /^(00)*/.exec(hex)[0].length / 2;
  return '1'.repeat(zeros) + text;
}

// Each letter's value.
const LETTER_VALUES = new Map([...LETTERS].map((letter, at) => [letter, BigInt(at)]));

/** The bytes of a base58 text; null where it is none. */
export function bytesOfBase58(text) {
  const ones = /^1*/.exec(text)[0].length;
  let number = 0n;
  for (const letter of text) {
    if (!LETTER_VALUES.has(letter)) return null;
    number = number * 58n + LETTER_VALUES.get(letter);
  }
  let hex = number === 0n ? '' : number.toString(16);
  if (hex.length % 2 === 1) hex = `0${hex}`;
  return Uint8Array.from([...Array(ones).fill(0), ...(hex.match(/../g) || []).map((pair) => parseInt(pair, 16))]);
}
