// Rows of one market by dex_process of the module of WebAssembly: acting.mjs PLAY MODULE FILE.. reads files that acting.py
// wrote, lets each row act, and compares what it is answered, that a refusal changes nothing, and the last accounts. PLAY
// is the folder of play's modules. Prints 'N passed, M failed'.

import { readFileSync } from 'node:fs';
import { basename, join } from 'node:path';
import process from 'node:process';
import { pathToFileURL } from 'node:url';

const [, , play, file, ...names] = process.argv;
const { MarketInPlace } = await import(pathToFileURL(join(play, 'in_place.js')));
const module = new WebAssembly.Module(readFileSync(file));
const [PARTS, RECORD, NO_WALLET] = [7, 197, 255];
let [passed, failed] = [0, 0];

function tell(name, what, holds) {
  if (holds) passed += 1;
  else {
    failed += 1;
    console.log(`${name}: ${what}`);
  }
}

// What stands in a file, piece by piece.
class Reader {
  constructor(bytes) {
    Object.assign(this, { bytes, at: 0 });
  }

  take(length) {
    this.at += length;
    return this.bytes.subarray(this.at - length, this.at);
  }

  number() { return this.take(8).readBigUInt64LE(); }

  sized() { return this.take(Number(this.number())); }

  // The pieces of some bytes, each of a length.
  static pieces(bytes, length) { return Array.from({ length: bytes.length / length }, (_, at) => bytes.subarray(at * length, (at + 1) * length)); }

  accounts() {
    const parts = Array.from({ length: PARTS }, () => this.sized());
    const [orders, wallets] = [this.sized(), this.sized()];
    return { parts, orders, wallets: Reader.pieces(wallets, RECORD).map((record) => [record.subarray(0, 32), record.subarray(32)]) };
  }

  row() {
    const [signer, named, data, clock] = [this.take(32), Reader.pieces(this.sized(), 32), this.sized(), BigInt.asIntN(64, this.number())];
    const roles = [...this.take(4)].map((role) => (role === NO_WALLET ? null : role));
    const [program, hasSrm, hasMsrm] = this.take(3);
    const mints = [this.take(32), this.take(32)];
    const [srm, msrm] = [hasSrm, hasMsrm].map((has, at) => (has ? mints[at] : null));
    return { signer, named, data, clock, roles, program, srm, msrm, wanted: this.sized().toString() };
  }
}

// All bytes of some accounts, one after another.
function all({ parts, orders, wallets }) { return Buffer.concat([...parts, orders, ...wallets.flat()]); }

for (const path of names) {
  const [name, reader] = [basename(path), new Reader(readFileSync(path))];
  const [address, authority] = [reader.take(32), reader.take(32)];
  const market = new MarketInPlace(module, { address, authority, ...reader.accounts() });
  const count = Number(reader.number());
  for (let row = 0; row < count; row += 1) {
    const { wanted, ...instruction } = reader.row();
    const [before, pending] = [all(market.accounts), market.pending];
    const { kind, text } = market.process(instruction);
    tell(name, `row ${row}: ${text}, wanted ${wanted}`, text === wanted && (kind === 0) === wanted.startsWith('refused'));
    const isSame = before.equals(all(market.accounts)) && Buffer.compare(pending, market.pending) === 0;
    if (kind === 0) tell(name, `row ${row}: a refusal changes nothing`, isSame);
  }
  tell(name, 'the last accounts', all(market.accounts).equals(all(reader.accounts())));
}
console.log(`${passed} passed, ${failed} failed`);
