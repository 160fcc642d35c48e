// Bytes: base64, numbers in little-endian order, addresses.

const ALPHABET = 'ABCDEFGHIJKLMNOPQRSTUVWXYZabcdefghijklmnopqrstuvwxyz0123456789+/';
const DIGITS = new Uint8Array(128).fill(255);
for (let digit = 0; digit < 64; digit += 1) DIGITS[ALPHABET.charCodeAt(digit)] = digit;

/** The bytes of a base64 text with padding, or null where it is none; unused bits have to be zero. */
export function decodeBase64(text) {
  if (text.length % 4 !== 0) return null;
  const padding = text.endsWith('==') ? 2 : Number(text.endsWith('='));
  const digits = text.length - padding;
  const bytes = new Uint8Array((text.length / 4) * 3 - padding);
  let bits = 0;
  let held = 0;
  let filled = 0;
  for (let at = 0; at < digits; at += 1) {
    const code = text.charCodeAt(at);
    const digit = code < 128 ? DIGITS[code] : 255;
    if (digit === 255) return null;
    bits = ((bits << 6) | digit) & 0xfff;
    held += 6;
    if (held >= 8) {
      held -= 8;
      bytes[filled] = (bits >> held) & 0xff;
      filled += 1;
    }
  }
  return (bits & ((1 << held) - 1)) === 0 ? bytes : null;
}

/** The number that `length` bytes from a place on are, in little-endian order. */
export function numberAt(bytes, place, length) {
  let number = 0n;
  for (let at = place + length - 1; at >= place; at -= 1) number = (number << 8n) | BigInt(bytes[at]);
  return number;
}

/** The number of four bytes from a place on. */
export function wordAt(bytes, place) {
  return bytes[place] + bytes[place + 1] * 0x100 + bytes[place + 2] * 0x10000 + bytes[place + 3] * 0x1000000;
}

/** The number of eight bytes from a place on. */
export function longAt(bytes, place) {
  return BigInt(wordAt(bytes, place)) | (BigInt(wordAt(bytes, place + 4)) << 32n);
}

/** Bytes from a place on as hexadecimal digits. */
export function hexAt(bytes, place, length) {
  let digits = '';
  for (let at = place; at < place + length; at += 1) digits += bytes[at].toString(16).padStart(2, '0');
  return digits;
}

/** Bytes from a place on as text, where another byte than a visible one is a dot. */
export function textAt(bytes, place, length) {
  const text = String.fromCharCode(...bytes.subarray(place, place + length));
  return text.replace(/[^ -~]/g, '.');
}

/** The address of 32 bytes from a place on: its label where it has one, else `0x` and its digits. */
export function addressAt(bytes, place) {
  let length = 0;
  while (length < 32 && bytes[place + length] !== 0) length += 1;
  let end = length;
  while (end < 32 && bytes[place + end] === 0) end += 1;
  const label = String.fromCharCode(...bytes.subarray(place, place + length));
  return end === 32 && /^[a-z0-9_]{1,24}$/.test(label) ? label : `0x${hexAt(bytes, place, 32)}`;
}
