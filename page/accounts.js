// What accounts say: markets, token accounts, queues, sides of the book, open-orders accounts. Only what the reading itself
// needs is looked at; whether accounts agree with one another is the audit's.

import { addressAt, longAt, numberAt, textAt, wordAt } from './bytes.js';
import { LAYOUTS, valueOf } from './layouts.js';

/** What keeps an account from being read. */
export class AccountFault extends Error {}

// Asks for a length.
function checkSize(bytes, least, isLeast = false) {
  if (isLeast ? bytes.length < least : bytes.length !== least) {
    throw new AccountFault(`its length is ${bytes.length}, and ${isLeast ? 'at least ' : ''}${least} is wanted`);
  }
}

// Asks for the texts at the front and at the end, and for one of some flags.
function checkFrame(bytes, flags) {
  if (textAt(bytes, 0, 5) !== 'serum') throw new AccountFault('it does not begin with the text serum');
  if (textAt(bytes, bytes.length - 7, 7) !== 'padding') throw new AccountFault('it does not end with the text padding');
  const found = longAt(bytes, 5);
  if (!flags.includes(found)) throw new AccountFault(`its flags are ${found}, and ${flags.join(' or ')} is wanted`);
}

/** A mint's supply and decimals. */
export function readMint(bytes) {
  checkSize(bytes, LAYOUTS.mint.size);
  return { supply: valueOf('mint', 'supply', bytes), decimals: valueOf('mint', 'decimals', bytes) };
}

/** A token account's mint, owner and amount. */
export function readToken(bytes) {
  checkSize(bytes, LAYOUTS['token account'].size);
  const value = (field) => valueOf('token account', field, bytes);
  return { mint: value('mint'), owner: value('owner'), amount: value('amount') };
}

/** The words of a market account. */
export function readMarket(bytes) {
  checkSize(bytes, LAYOUTS.market.size);
  checkFrame(bytes, [3n, 131n]);
  const value = (field) => valueOf('market', field, bytes);
  const market = {
    isDisabled: value('account_flags') === 131n,
    coinMint: value('coin_mint'),
    pcMint: value('pc_mint'),
    coinLot: value('coin_lot_size'),
    pcLot: value('pc_lot_size'),
    coinDeposits: value('coin_deposits_total'),
    pcDeposits: value('pc_deposits_total'),
    coinFees: value('coin_fees_accrued'),
    pcFees: value('pc_fees_accrued'),
    rebates: value('referrer_rebates_accrued'),
    addresses: ['coin_vault', 'pc_vault', 'req_q', 'event_q', 'bids', 'asks'].map(value),
  };
  if (market.coinLot === 0n || market.pcLot === 0n) throw new AccountFault('a lot size is 0');
  return market;
}

/** The next sequence number, of a request queue. */
export function readRequests(bytes) {
  checkSize(bytes, 44, true);
  checkFrame(bytes, [9n]);
  return valueOf('request queue', 'next_seq_num', bytes);
}

// What an event is, by its flags.
function kindOfEvent(flags) {
  const isBid = (flags & 4) !== 0;
  const kind = { 1: 'taker fill', 9: 'maker fill', 2: 'out', 18: 'releasing out' }[flags & ~4];
  if (kind === undefined) throw new AccountFault(`an event has the flags ${flags}, which are those of no kind`);
  return { kind, isBid };
}

// The event from a place on.
function eventAt(bytes, base) {
  const value = (field) => valueOf('event', field, bytes, base);
  const { kind, isBid } = kindOfEvent(bytes[base]);
  return {
    kind,
    slot: bytes[base + 1],
    tier: bytes[base + 2],
    released: value('native_qty_released'),
    paid: value('native_qty_paid'),
    fee: value('native_fee_or_rebate'),
    ...orderOfId(value('order_id'), isBid),
    owner: value('owner'),
    client: value('client_order_id'),
  };
}

/** The pending events of an event queue, from the front. */
export function readEvents(bytes) {
  const header = LAYOUTS['event queue'].size;
  checkSize(bytes, header + 88 + 7, true);
  checkFrame(bytes, [17n]);
  const capacity = Math.floor((bytes.length - header - 7) / 88);
  const head = valueOf('event queue', 'head', bytes);
  const count = valueOf('event queue', 'count', bytes);
  if (head >= BigInt(capacity)) throw new AccountFault(`its head is ${head}, and below ${capacity} is wanted`);
  if (count > BigInt(capacity)) throw new AccountFault(`its count is ${count}, and at most ${capacity} is wanted`);
  const place = (at) => header + 88 * ((Number(head) + at) % capacity);
  return { capacity, list: Array.from({ length: Number(count) }, (_, at) => eventAt(bytes, place(at))) };
}

/** What the id of an order tells: its price and its sequence number. */
export function orderOfId(id, isBid) {
  const low = id & 0xffffffffffffffffn;
  return { id, isBid, price: id >> 64n, sequence: isBid ? 0xffffffffffffffffn - low : low };
}

// The order of the leaf from a place on.
function leafAt(bytes, base, isBid) {
  return {
    slot: bytes[base + 4],
    tier: bytes[base + 5],
    ...orderOfId(numberAt(bytes, base + 8, 16), isBid),
    owner: addressAt(bytes, base + 24),
    lots: longAt(bytes, base + 56),
    client: longAt(bytes, base + 64),
  };
}

/** The orders that rest on a side, best first. */
export function readSide(bytes, isBid) {
  const header = LAYOUTS.slab.size;
  checkSize(bytes, header + 72 + 7, true);
  checkFrame(bytes, [isBid ? 33n : 65n]);
  const nodes = Math.floor((bytes.length - header - 7) / 72);
  const leaves = valueOf('slab', 'leaf_count', bytes);
  const open = leaves === 0n ? [] : [wordAt(bytes, 33)];
  const met = new Uint8Array(nodes);
  const orders = [];
  while (open.length > 0) {
    const node = open.pop();
    if (node >= nodes || met[node] === 1) throw new AccountFault(`its tree goes to node ${node}, which is met before or is not there`);
    met[node] = 1;
    const base = header + 72 * node;
    const tag = wordAt(bytes, base);
    if (tag === 1) open.push(wordAt(bytes, base + 24), wordAt(bytes, base + 28));
    else if (tag === 2) orders.push(leafAt(bytes, base, isBid));
    else throw new AccountFault(`its tree goes to node ${node}, which has the tag ${tag}`);
  }
  if (BigInt(orders.length) !== leaves) throw new AccountFault(`its leaf_count is ${leaves}, and ${orders.length} leaves are reached`);
  orders.sort((one, other) => ((one.id < other.id) === isBid ? 1 : -1));
  return { capacity: Math.floor((nodes + 1) / 2), orders };
}

/** An open-orders account: blank, open or closed, with its funds. */
export function readOrders(bytes) {
  checkSize(bytes, LAYOUTS['open orders'].size);
  if (bytes.every((byte) => byte === 0)) return { state: 'blank' };
  checkFrame(bytes, [5n, 256n]);
  const value = (field) => valueOf('open orders', field, bytes);
  const free = value('free_slot_bits');
  let taken = 128;
  for (let bits = free; bits > 0n; bits &= bits - 1n) taken -= 1;
  return {
    state: value('account_flags') === 5n ? 'open' : 'closed',
    owner: value('owner'),
    free: { coin: value('native_coin_free'), pc: value('native_pc_free') },
    total: { coin: value('native_coin_total'), pc: value('native_pc_total') },
    referrer: value('referrer_rebates_accrued'),
    taken,
    holds: (order) => slotHolds(bytes, order),
    slotId: (slot) => (slot > 127 || isFree(bytes, slot) ? 0n : valueOf('open orders', `orders[${slot}]`, bytes)),
    slots: () => takenSlotsOf(bytes),
  };
}

// Whether a slot is free.
function isFree(bytes, slot) { return (bytes[109 + (slot >> 3)] & (1 << (slot & 7))) !== 0; }

// The orders of the taken slots, each with its slot and client id.
function takenSlotsOf(bytes) {
  const orders = [];
  for (let slot = 0; slot < 128; slot += 1) {
    if (isFree(bytes, slot)) continue;
    const isBid = (bytes[125 + (slot >> 3)] & (1 << (slot & 7))) !== 0;
    const client = valueOf('open orders', `client_order_ids[${slot}]`, bytes);
    orders.push({ slot, client, ...orderOfId(valueOf('open orders', `orders[${slot}]`, bytes), isBid) });
  }
  return orders;
}

// Whether the slot of an order or event holds its id, side and client id.
function slotHolds(bytes, { slot, id, isBid, client }) {
  if (slot > 127) return false;
  const bit = (name) => (valueOf('open orders', name, bytes) >> BigInt(slot)) & 1n;
  return bit('free_slot_bits') === 0n && (bit('is_bid_bits') === 1n) === isBid
    && valueOf('open orders', `orders[${slot}]`, bytes) === id && valueOf('open orders', `client_order_ids[${slot}]`, bytes) === client;
}
