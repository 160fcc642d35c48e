// The layouts of accounts: each field with its name, place, length and kind, as docs/FORMATS.md has them.

import { addressAt, hexAt, numberAt, textAt } from './bytes.js';
import { LAYOUT_WORDS } from './tables.js';

// What the bytes of a field are, by its name and length.
function kindOfField(name, length) {
  if (name === 'serum' || name === 'padding') return length === 5 && name === 'serum' || length === 7 ? 'text' : 'bytes';
  if (name === 'account_flags') return 'account flags';
  if (name.endsWith('_bits')) return 'bits';
  if (name === 'order_id' || name === 'key' || name.startsWith('orders[')) return 'order id';
  if (length === 32) return 'address';
  return length === 36 || length === 12 || length > 16 ? 'bytes' : 'number';
}

// The words of a field that is there several times: a word for each.
function repeated(word) {
  const [, name, count, length] = word.match(/^(\w+)\*(\d+)(:\d+)?$/) || [];
  return count === undefined ? [word] : Array.from({ length: Number(count) }, (_, at) => `${name}[${at}]${length || ''}`);
}

// A layout of fields, one after the other, of the words that LAYOUT_WORDS has.
function layout(words) {
  const fields = [];
  let place = 0;
  for (const word of words.split(' ').flatMap(repeated)) {
    const [name, digits] = word.split(':');
    const length = digits === undefined ? 8 : Number(digits);
    fields.push({ name, place, length, kind: kindOfField(name, length) });
    place += length;
  }
  const named = new Map(fields.map((field) => [field.name, field]));
  return { fields, named, size: place };
}

export const LAYOUTS = Object.fromEntries(Object.entries(LAYOUT_WORDS).map(([name, words]) => [name, layout(words)]));
LAYOUTS['unused node'] = layout('unused:72');
LAYOUTS['text at the end'] = layout('padding:7');

/** The number or address that a field of an account, or of a record of it from `base` on, holds. */
export function valueOf(name, field, bytes, base = 0) {
  const { place, length, kind } = LAYOUTS[name].named.get(field);
  return kind === 'address' ? addressAt(bytes, base + place) : numberAt(bytes, base + place, length);
}

const ACCOUNT_FLAGS = ['Initialized', 'Market', 'OpenOrders', 'RequestQueue', 'EventQueue', 'Bids', 'Asks', 'Disabled', 'Closed'];
const EVENT_FLAGS = ['Fill', 'Out', 'Bid', 'Maker', 'ReleaseFunds'];

// A set of flags as its number and the names of its members.
function flagsText(number, names) {
  const members = names.filter((_, bit) => (number >> BigInt(bit)) & 1n);
  return members.length === 0 ? `${number}` : `${number}: ${members.join(', ')}`;
}

// The bits that are set in a number of 128 bits, as ranges.
function bitsText(number) {
  const ranges = [];
  for (let bit = 0; bit < 128; bit += 1) {
    if (((number >> BigInt(bit)) & 1n) === 0n) continue;
    const last = ranges[ranges.length - 1];
    if (last !== undefined && last[1] === bit - 1) last[1] = bit;
    else ranges.push([bit, bit]);
  }
  if (ranges.length === 0) return 'none of 128';
  return ranges.map(([from, to]) => (from === to ? `${from}` : `${from} to ${to}`)).join(', ');
}

/** What a field of an account says, as text. */
export function fieldText(field, bytes, base) {
  const place = base + field.place;
  switch (field.kind) {
    case 'text': return textAt(bytes, place, field.length);
    case 'address': return addressAt(bytes, place);
    case 'bytes': return bytes.subarray(place, place + field.length).some((byte) => byte !== 0) ? 'see the bytes' : 'zeros';
    case 'bits': return bitsText(numberAt(bytes, place, field.length));
    case 'account flags': return flagsText(numberAt(bytes, place, 8), ACCOUNT_FLAGS);
    case 'order id': {
      const id = numberAt(bytes, place, 16);
      return id === 0n ? '0' : `${id} (price ${id >> 64n})`;
    }
    default: {
      const number = numberAt(bytes, place, field.length);
      return field.name === 'flags' ? flagsText(number, EVENT_FLAGS) : `${number}`;
    }
  }
}

// The layout of a node, by its tag.
function nodeLayout(bytes, base) {
  return ['unused node', 'inner node', 'leaf node', 'free node', 'free node'][bytes[base]] || 'unused node';
}

// The records of an account one behind the other, each with its layout, its base and a name in front of its fields.
function recordsOf(kind, bytes) {
  const records = [{ name: kind, base: 0, front: '' }];
  const header = LAYOUTS[kind].size;
  const size = kind === 'event queue' ? 88 : 72;
  if (kind === 'event queue' || kind === 'slab') {
    for (let base = header, at = 0; base + size <= bytes.length - 7; base += size, at += 1) {
      if (kind === 'slab') records.push({ name: nodeLayout(bytes, base), base, front: `node ${at}: ` });
      else records.push({ name: 'event', base, front: `event place ${at}: ` });
    }
  }
  if (header !== bytes.length) records.push({ name: 'text at the end', base: bytes.length - 7, front: '' });
  return records;
}

/** The fields of an account of a kind, as a count and a function of the number of a field; fields are read when asked for. */
export function fieldsOf(kind, bytes) {
  const records = recordsOf(kind, bytes);
  const starts = [0];
  for (const { name } of records) starts.push(starts[starts.length - 1] + LAYOUTS[name].fields.length);
  const at = (number) => {
    let low = 0;
    let high = records.length;
    while (high - low > 1) {
      const middle = (low + high) >> 1;
      if (starts[middle] <= number) low = middle;
      else high = middle;
    }
    const { name, base, front } = records[low];
    const field = LAYOUTS[name].fields[number - starts[low]];
    return {
      place: base + field.place,
      length: field.length,
      name: front + field.name,
      text: fieldText(field, bytes, base),
      address: field.kind === 'address' ? addressAt(bytes, base + field.place) : null,
      hex: hexAt(bytes, base + field.place, field.length),
    };
  };
  return { count: starts[records.length], at };
}
