// Accounts as a ledger's tools print them, as JSON: which markets and open-orders accounts they hold, what of these is missing, and the
// dump that they are where all of a market is there.

import { AccountFault, readEvents, readMarket, readMint, readOrders, readSide, readToken } from './accounts.js';
import { bytesOfBase58 } from './base58.js';
import { addressAt, decodeBase64, longAt } from './bytes.js';

const TOKEN_PROGRAM = 'TokenkegQfeZyiNwAJbNbGKPFXCWuBvf9Ss623VQ5DA';
// Base58 takes time by the square of its length; nodes give 128 bytes in it.
const MOST_BASE58 = 8192;
const PARTS = ['coin vault', 'pc vault', 'request queue', 'event queue', 'bids', 'asks'];
const PLACE_OF_AMOUNT = 64;
const PLACE_OF_SUPPLY = 36;
const PLACE_OF_NATIVE = 109;

/** Why a file's accounts cannot be read, in a sentence. */
export class LedgerFault extends Error {}

/** Whether a text begins as JSON of accounts does. */
export function isLedgerText(text) { return /^\ufeff?\s*[[{]/.test(text); }

// An address as the page's words have it, from base58.
function wordOfBase58(text) {
  const bytes = typeof text === 'string' && text.length <= 44 ? bytesOfBase58(text) : null;
  if (bytes === null || bytes.length !== 32) throw new LedgerFault(`${JSON.stringify(text)} is no address in base58`);
  return addressAt(bytes, 0);
}

// The bytes of an account's data.
function bytesOfData(data) {
  const [text, encoding] = typeof data === 'string' ? [data, 'base58'] : [].concat(data);
  let bytes = null;
  if (typeof text === 'string' && encoding === 'base64') bytes = decodeBase64(text);
  if (typeof text === 'string' && encoding === 'base58' && text.length <= MOST_BASE58) bytes = bytesOfBase58(text);
  if (bytes === null) throw new LedgerFault('its data is neither base64 nor base58; ask again with "encoding": "base64"');
  return bytes;
}

// The addresses of a file beside one whose answers have none.
class BesideAddresses {
  constructor(name, files) {
    this.name = `${name.replace(/\.[^.]*$/, '')}.addresses`;
    const file = files.find((one) => one.name === this.name);
    this.words = file === undefined ? null : file.text.split(/\s+/).filter((word) => word !== '');
    this.used = 0;
  }

  // The next address.
  take() {
    if (this.words === null) throw new LedgerFault(`an answer in it has no address; give ${this.name} too, with the addresses of the request, one a line`);
    if (this.used === this.words.length) throw new LedgerFault(`it has more answers than ${this.name} has addresses`);
    this.used += 1;
    return this.words[this.used - 1];
  }
}

// The accounts of a JSON value, each with its address.
function* ledgerAccounts(value, beside) {
  if (Array.isArray(value)) for (const one of value) yield* ledgerAccounts(one, beside);
  else if (value === null || typeof value !== 'object') throw new LedgerFault(`${JSON.stringify(value)} stands where an account is wanted`);
  else if (value.error) throw new LedgerFault('the node answered with an error; ask again');
  else if ('result' in value) yield* ledgerAccounts(value.result, beside);
  else if ('context' in value && 'value' in value) yield* ledgerAccounts(value.value, beside);
  else if ('pubkey' in value && value.account) yield { address: wordOfBase58(value.pubkey), owner: value.account.owner, bytes: bytesOfData(value.account.data) };
  else if ('data' in value && 'owner' in value) yield { address: wordOfBase58(beside.take()), owner: value.owner, bytes: bytesOfData(value.data) };
  else throw new LedgerFault('it holds no account in a form that is known here; docs/LEDGER.md tells the forms');
}

/** The accounts of a file of JSON; `files` are all that came with it. */
export function accountsOfFile({ name, text }, files) {
  let value;
  try {
    value = JSON.parse(text.replace(/^\ufeff/, ''));
  } catch {
    throw new LedgerFault('it is no JSON; save the whole answer of the tool');
  }
  try {
    return [...ledgerAccounts(value, new BesideAddresses(name, files))];
  } catch (fault) {
    if (fault instanceof RangeError) throw new LedgerFault('it is nested too deep');
    throw fault;
  }
}

// What an account is by its owner, length and flags; null where the page shows none such by itself.
function kindOfAccount({ owner, bytes }) {
  if (owner === TOKEN_PROGRAM) return { 82: 'mint', 165: 'token' }[bytes.length] || null;
  if (bytes.length === 388) return 'market';
  if (bytes.length !== 3228) return null;
  return bytes.every((byte) => byte === 0) || [5n, 256n].includes(longAt(bytes, 5)) ? 'orders' : null;
}

// What a reader reads of an account; null where it is not there, and what keeps it from being read is noted.
function readOrNull(looked, account, what, read) {
  if (account === undefined) return null;
  try {
    return read(account.bytes);
  } catch (fault) {
    if (!(fault instanceof AccountFault)) throw fault;
    looked.faults.push(`The ${what} ${account.address}: ${fault.message}.`);
    return null;
  }
}

// A market with as much of it as is there, and what is missing.
function marketIn(looked, account) {
  const words = readOrNull(looked, account, 'market', readMarket);
  if (words === null) return null;
  const at = (address) => looked.accounts.get(address);
  const mint = (address) => readOrNull(looked, at(address), 'mint', readMint);
  const part = (number, read) => readOrNull(looked, at(words.addresses[number]), PARTS[number], read);
  const [coinMint, pcMint] = [mint(words.coinMint), mint(words.pcMint)];
  const named = [...PARTS.map((what, number) => ({ what, address: words.addresses[number] })),
    { what: 'mint of coin', address: words.coinMint }, { what: 'mint of pc', address: words.pcMint }];
  return {
    address: account.address,
    ...words,
    coinDecimals: coinMint === null ? null : Number(coinMint.decimals),
    pcDecimals: pcMint === null ? null : Number(pcMint.decimals),
    events: part(3, readEvents),
    bids: part(4, (bytes) => readSide(bytes, true)),
    asks: part(5, (bytes) => readSide(bytes, false)),
    missing: named.filter(({ address }) => !looked.accounts.has(address)),
  };
}

// An open-orders account with its market, where that is there.
function ordersIn(looked, account) {
  const read = readOrNull(looked, account, 'open-orders account', readOrders);
  if (read === null) return null;
  const marketAddress = read.state === 'blank' ? null : addressAt(account.bytes, 13);
  return { address: account.address, ...read, marketAddress, market: looked.markets.find(({ address }) => address === marketAddress) || null };
}

// Bytes in base64.
function ledgerBase64(bytes) {
  let signs = '';
  for (let at = 0; at < bytes.length; at += 8192) signs += String.fromCharCode(...bytes.subarray(at, at + 8192));
  return btoa(signs);
}

// A number of 8 bytes in the place of another.
function withLong(bytes, place, number) {
  const copy = bytes.slice();
  for (let at = 0; at < 8; at += 1) copy[place + at] = Number((number >> BigInt(8 * at)) & 255n);
  return copy;
}

// A token account without the word that it is native, which a dump has no form for.
function plainToken(bytes) {
  const isNative = [1, 0, 0, 0].every((byte, at) => bytes[PLACE_OF_NATIVE + at] === byte);
  if (!isNative) return bytes;
  const copy = bytes.slice();
  copy.fill(0, PLACE_OF_NATIVE, PLACE_OF_NATIVE + 12);
  return copy;
}

// The row of the wallet that holds what no other account here holds of a mint; none where nothing is left.
function restRow(mint, place, tokens) {
  const held = tokens.filter(({ bytes }) => addressAt(bytes, 0) === mint.address).reduce((sum, { bytes }) => sum + longAt(bytes, PLACE_OF_AMOUNT), 0n);
  const left = longAt(mint.bytes, PLACE_OF_SUPPLY) - held;
  if (left <= 0n) return [];
  const bytes = new Uint8Array(165);
  bytes.set(tokens.find((token) => addressAt(token.bytes, 0) === mint.address).bytes.subarray(0, 32));
  bytes.set(new TextEncoder().encode('rest'), 32);
  bytes[108] = 1;
  return [`wallet,rest_${place},${ledgerBase64(withLong(bytes, PLACE_OF_AMOUNT, left))}`];
}

/**
 * The dump of the markets of which all is there, as `./ledger dump` makes it; null where there is none. Accounts do not tell a market's
 * authority, so `unknown` stands in its place.
 */
export function dumpOfLooked(looked) {
  const whole = looked.markets.filter(({ missing }) => missing.length === 0);
  if (whole.length === 0) return null;
  const at = (address) => looked.accounts.get(address);
  const mints = [...new Set(whole.flatMap(({ coinMint, pcMint }) => [coinMint, pcMint]))].map(at);
  const vaults = whole.flatMap(({ addresses }) => addresses.slice(0, 2)).map(at);
  const isWallet = (one) => kindOfAccount(one) === 'token' && !vaults.includes(one) && mints.some(({ address }) => address === addressAt(one.bytes, 0));
  const wallets = [...looked.accounts.values()].filter(isWallet);
  const rows = mints.map(({ address, bytes }) => `mint,${address},${ledgerBase64(bytes)}`);
  rows.push(...wallets.map(({ address, bytes }) => `wallet,${address},${ledgerBase64(plainToken(bytes))}`));
  mints.forEach((mint, place) => rows.push(...restRow(mint, place, [...wallets, ...vaults])));
  for (const market of whole) {
    const texts = market.addresses.map((address, number) => ledgerBase64(number < 2 ? plainToken(at(address).bytes) : at(address).bytes));
    rows.push(`market,${market.address},unknown,${ledgerBase64(at(market.address).bytes)},${texts.join(',')}`);
    for (const one of looked.orders) if (one.market === market) rows.push(`orders,${market.address},${one.address},${ledgerBase64(at(one.address).bytes)}`);
  }
  return `${['dump', ...rows, 'enddump'].join('\n')}\n`;
}

/** What accounts hold: markets, open-orders accounts, token accounts, what cannot be read, and the dump that they are. */
export function lookAt(accounts) {
  const looked = { accounts, markets: [], orders: [], tokens: [], faults: [], dump: null };
  const ofKind = (kind) => [...accounts.values()].filter((account) => kindOfAccount(account) === kind);
  looked.markets = ofKind('market').map((account) => marketIn(looked, account)).filter((one) => one !== null);
  looked.orders = ofKind('orders').map((account) => ordersIn(looked, account)).filter((one) => one !== null);
  looked.tokens = ofKind('token').map((account) => ({ address: account.address, ...readToken(account.bytes) }));
  looked.dump = looked.faults.length === 0 ? dumpOfLooked(looked) : null;
  return looked;
}

/** Takes the files of accounts out of those that were given, beside accounts that are there already: what they hold, the others, and faults. */
export function takeLedgerFiles(given, before) {
  const isOne = ({ name, text }) => isLedgerText(text) || name.endsWith('.addresses');
  const files = given.filter(isOne);
  const accounts = new Map(before);
  const faulty = [];
  for (const file of files.filter(({ text }) => isLedgerText(text))) {
    try {
      for (const account of accountsOfFile(file, files)) accounts.set(account.address, account);
    } catch (fault) {
      if (!(fault instanceof LedgerFault)) throw fault;
      faulty.push({ name: file.name, kind: 'accounts', read: null, fault });
    }
  }
  const names = files.filter(({ text }) => isLedgerText(text)).map(({ name }) => name).join(', ');
  return { names, others: given.filter((one) => !isOne(one)), looked: accounts.size === 0 || names === '' ? null : lookAt(accounts), faulty };
}
