// Instructions on the accounts of one market in the memory of an instance of the module, in place: dex_process, as library/dex.h has it. The
// structs are those of 64 bits; places in them are below 2^32. The page does not use it.

import { instanceOf, MOST_PAGES } from './calls.js';

const [ADDRESS, WALLET, MOST_NAMED, NO_WALLET] = [32, 165, 16, 255];
const [MARKET, WALLETS, INSTRUCTION, REPLY, MOST_DATA, TEXT] = [224, 192, 640, 176, 65536, 512];
// Where the numbers of an instruction stand, behind who signs and who is named.
const [DATA_AT, CLOCK_AT, NUMBERS_AT, MINTS_AT] = [544, 560, 568, 576];

/** A market and the wallets that its traders use. */
export class MarketInPlace {
  /**
   * Takes the accounts of a market that is sound, all as bytes: `parts` are the market, its vaults of base and of quote, its queues of requests
   * and of events, bids and asks; `orders` its open-orders accounts, each behind its address; `wallets` pairs of an address and an account.
   */
  constructor(module, { address, authority, parts, orders, wallets }) {
    this.instance = instanceOf(module, MOST_PAGES);
    this.blocks = [...parts, orders].map((bytes) => this.kept(bytes));
    this.wallets = wallets.map(([word, bytes]) => ({ word, at: this.kept(bytes).at }));
    [this.market, this.lent, this.instruction, this.reply, this.data, this.text] = [MARKET, WALLETS, INSTRUCTION, REPLY, MOST_DATA, TEXT]
      .map((size) => this.room(size));
    this.write(this.market, address, authority);
    this.blocks.forEach(({ at, length }, block) => this.writePair(this.market + 2 * ADDRESS + 16 * block, at, length));
    this.instance.exports.dex_pending(BigInt(this.market));
  }

  // The memory's bytes, and a view of its numbers: these are others when it has grown.
  get bytes() { return new Uint8Array(this.instance.memory.buffer); }

  get numbers() { return new DataView(this.instance.memory.buffer); }

  // Room for some bytes, one at least.
  room(size) {
    const place = this.instance.take(Math.max(size, 1));
    if (place === 0) throw new RangeError('memory is wanting');
    return place;
  }

  // Bytes in the memory.
  kept(bytes) {
    const at = this.room(bytes.length);
    this.bytes.set(bytes, at);
    return { at, length: bytes.length };
  }

  // Writes bytes one after another from a place on.
  write(place, ...all) {
    let at = place;
    for (const bytes of all) {
      this.bytes.set(bytes, at);
      at += bytes.length;
    }
  }

  // Writes a place with a length.
  writePair(place, at, length) {
    this.numbers.setBigUint64(place, BigInt(at), true);
    this.numbers.setBigUint64(place + 8, BigInt(length), true);
  }

  // Lends the wallets that are named, each once; answers which of them each role names.
  lend(roles) {
    const named = [...new Set(roles.filter((role) => role !== null))];
    for (let at = 0; at < 4; at += 1) {
      const wallet = at < named.length ? this.wallets[named[at]] : { word: new Uint8Array(ADDRESS), at: this.text };
      this.write(this.lent + 48 * at, wallet.word);
      this.writePair(this.lent + 48 * at + ADDRESS, wallet.at, at < named.length ? WALLET : 0);
    }
    return roles.map((role) => (role === null ? NO_WALLET : named.indexOf(role)));
  }

  /**
   * Does an instruction, or refuses it and changes nothing; answers its kind (0: refused) and its reply as a report has it. `named` are addresses;
   * `roles` the numbers of the wallets of base, quote, discount and referrer, null where there is none; `program` is 0 for serum; `srm` and
   * `msrm` are addresses or null.
   */
  process({ signer, named, data, clock = 0n, roles, program = 0, srm = null, msrm = null }) {
    if (named.length > MOST_NAMED || data.length > MOST_DATA) throw new RangeError('more accounts, or more data, than an instruction has');
    const { exports } = this.instance;
    const places = this.lend(roles);
    this.bytes.fill(0, this.instruction, this.instruction + INSTRUCTION);
    this.write(this.instruction, signer, ...named);
    this.write(this.data, data);
    this.writePair(this.instruction + DATA_AT, this.data, data.length);
    this.numbers.setBigInt64(this.instruction + CLOCK_AT, clock, true);
    this.write(this.instruction + NUMBERS_AT, [named.length, ...places, program, Number(srm !== null), Number(msrm !== null)]);
    if (srm !== null) this.write(this.instruction + MINTS_AT, srm);
    if (msrm !== null) this.write(this.instruction + MINTS_AT + ADDRESS, msrm);
    const kind = exports.dex_process(...[this.market, this.lent, this.instruction, this.reply].map(BigInt)) & 255;
    return { kind, text: this.replyText() };
  }

  // The reply as text.
  replyText() {
    const { exports } = this.instance;
    const size = this.text + TEXT - 8;
    exports.dex_reply_text(...[this.reply, this.text, TEXT - 8, size].map(BigInt));
    return new TextDecoder().decode(this.bytes.slice(this.text, this.text + Number(this.numbers.getBigUint64(size, true))));
  }

  /** All bytes of the accounts, as they were handed in. */
  get accounts() {
    const cut = ({ at, length }) => this.bytes.slice(at, at + length);
    const all = this.blocks.map(cut);
    return { parts: all.slice(0, -1), orders: all[all.length - 1], wallets: this.wallets.map(({ word, at }) => [word, cut({ at, length: WALLET })]) };
  }

  /** What is pending in the event queue, as the last instruction left it. */
  get pending() { return this.bytes.slice(this.market + MARKET - ADDRESS, this.market + MARKET); }
}
