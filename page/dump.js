// The rows of a dump: mints, wallets, markets with all their accounts, and every account by its address.

import { AccountFault, readEvents, readMarket, readMint, readOrders, readRequests, readSide, readToken } from './accounts.js';
import { decodeBase64 } from './bytes.js';
import { breathe, frontOf, isAddress, LineFault } from './text.js';

// How many fields a row of a dump has, by its first one.
const ROW_FIELDS = { mint: 3, srm: 2, msrm: 2, wallet: 3, market: 10, orders: 4 };

// A row has fewer fields by far.
const MOST_FIELDS_OF_A_ROW = 100;

// Runs the reading of an account, and tells its fault at its line.
function atLine(line, what, read) {
  try {
    return read();
  } catch (fault) {
    if (fault instanceof AccountFault) throw new LineFault(line, `${what}: ${fault.message}.`);
    throw fault;
  }
}

/** The rows of a dump as they are read one after the other. */
class DumpReader {
  constructor() {
    this.exchange = { mints: new Map(), wallets: new Map(), markets: new Map(), accounts: new Map(), vaultOwners: new Map(), srm: null, msrm: null };
  }

  // The bytes of a field in base64.
  bytesOf(field, what) {
    const bytes = decodeBase64(field);
    if (bytes === null) throw new LineFault(this.line, `${what} is no base64 text: ${frontOf(field)}.`);
    return bytes;
  }

  // Notes an account by its address, which has to be new.
  note(address, kind, bytes, what, market = null) {
    const { accounts } = this.exchange;
    if (accounts.has(address)) throw new LineFault(this.line, `The address ${address} stands for two accounts.`);
    const name = market === null ? what : `${what} of ${market}`;
    accounts.set(address, { address, kind, bytes, what: name, part: what, market, line: this.line });
  }

  mint([, address, field]) {
    const bytes = this.bytesOf(field, `The mint ${address}`);
    const mint = atLine(this.line, `The mint ${address}`, () => readMint(bytes));
    this.note(address, 'mint', bytes, 'mint');
    this.exchange.mints.set(address, { address, ...mint });
  }

  srm([, address]) { this.exchange.srm = address; }

  msrm([, address]) { this.exchange.msrm = address; }

  wallet([, address, field]) {
    const bytes = this.bytesOf(field, `The wallet ${address}`);
    const token = atLine(this.line, `The wallet ${address}`, () => readToken(bytes));
    this.note(address, 'token account', bytes, 'wallet');
    this.exchange.wallets.set(address, { address, ...token });
  }

  // The decimals of a mint; null where it is not there.
  decimalsOf(address) {
    const mint = this.exchange.mints.get(address);
    return mint === undefined ? null : Number(mint.decimals);
  }

  // The seven accounts of a market that stand in its row.
  market([, address, authority, ...fields]) {
    const names = ['account', 'coin vault', 'pc vault', 'request queue', 'event queue', 'bids', 'asks'];
    const bytes = fields.map((field, at) => this.bytesOf(field, `The ${names[at]} of market ${address}`));
    const read = (at, reader) => atLine(this.line, `The ${names[at]} of market ${address}`, () => reader(bytes[at]));
    const market = {
      address,
      authority,
      ...read(0, readMarket),
      coinVault: read(1, readToken),
      pcVault: read(2, readToken),
      nextSequence: read(3, readRequests),
      events: read(4, readEvents),
      bids: read(5, (side) => readSide(side, true)),
      asks: read(6, (side) => readSide(side, false)),
      traders: new Map(),
    };
    market.coinDecimals = this.decimalsOf(market.coinMint);
    market.pcDecimals = this.decimalsOf(market.pcMint);
    this.note(address, 'market', bytes[0], 'market');
    const kinds = ['token account', 'token account', 'request queue', 'event queue', 'slab', 'slab'];
    market.addresses.forEach((own, at) => this.note(own, kinds[at], bytes[at + 1], names[at + 1], address));
    this.exchange.vaultOwners.set(market.coinVault.owner, address);
    this.exchange.markets.set(address, market);
  }

  orders([, marketAddress, address, field]) {
    const market = this.exchange.markets.get(marketAddress);
    if (market === undefined) throw new LineFault(this.line, `No row above declares the market ${marketAddress}.`);
    const bytes = this.bytesOf(field, `The account ${address}`);
    const account = atLine(this.line, `The account ${address}`, () => readOrders(bytes));
    this.note(address, 'open orders', bytes, `open orders on ${marketAddress}`);
    market.traders.set(address, { address, ...account });
  }

  // Reads one row.
  row(text) {
    const fields = text.split(',', MOST_FIELDS_OF_A_ROW);
    const wanted = Object.hasOwn(ROW_FIELDS, fields[0]) ? ROW_FIELDS[fields[0]] : undefined;
    if (wanted === undefined) {
      const words = 'mint, srm, msrm, wallet, market, orders or enddump';
      throw new LineFault(this.line, `A row of a dump begins with ${words}; here stands ${frontOf(text)}.`);
    }
    if (fields.length !== wanted) {
      const count = fields.length < MOST_FIELDS_OF_A_ROW ? fields.length : `${MOST_FIELDS_OF_A_ROW} or more`;
      throw new LineFault(this.line, `A row ${fields[0]} has ${wanted} fields; here are ${count}.`);
    }
    const addresses = ['market', 'orders'].includes(fields[0]) ? 2 : 1;
    const wrong = fields.slice(1, 1 + addresses).find((field) => !isAddress(field));
    if (wrong !== undefined) throw new LineFault(this.line, `${frontOf(wrong)} is no address.`);
    this[fields[0]](fields);
  }
}

/** Reads the rows of a dump from the line of `dump` on; answers its accounts and the line behind `enddump`. */
export async function readDump(lines, first, tell) {
  const reader = new DumpReader();
  for (let line = first + 1; line <= lines.count; line += 1) {
    const text = lines.at(line);
    if (text === 'enddump') return { exchange: reader.exchange, next: line + 1 };
    reader.line = line;
    reader.row(text);
    await breathe(tell, line, (1 + line / lines.count) / 2);
  }
  throw new LineFault(lines.count + 1, 'The text ends inside the dump: enddump is missing.');
}
