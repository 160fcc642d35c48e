// What is on the page: the report or dump, and the texts beside it.

import { auditOf } from './audit.js';
import { askedBy } from './instructions.js';
import { replayOf } from './lives.js';
import { dealingsOf, personsOf } from './owners.js';
import { mismatch } from './script.js';
import { strayWorth } from './worth.js';

// What stands in the place of a report where only other texts were given.
function noReport() {
  const exchange = { mints: new Map(), wallets: new Map(), markets: new Map(), accounts: new Map(), vaultOwners: new Map(), srm: null, msrm: null };
  return { kind: 'none', rows: 0, lines: null, markets: new Map(), wallets: new Map(), swaps: new Map(), exchange };
}

/** What the texts that were read show together; `texts` has one of each kind at most. */
export class Shown {
  constructor(texts) {
    const main = texts.report || texts.dump;
    this.texts = texts;
    this.report = main === undefined ? noReport() : main.read;
    this.exchange = this.report.exchange;
    this.answer = texts.answer === undefined ? null : texts.answer.read;
    // Accounts of a ledger as they were given, of which some may be missing.
    this.looked = texts.accounts === undefined ? null : texts.accounts.read;
    // What could not be used, told above every view.
    this.notices = [];
    this.script = texts.script === undefined ? null : texts.script.read;
    this.joined = this.joinScript();
    // The accounts that the script begins with, where it begins with a dump.
    this.start = this.joined === null ? null : this.joined.start;
    this.replays = new Map();
    this.allDealings = new Map();
    this.worth = this.joinWorth();
    // Buttons of orders and accounts, in a page where rows can be written: `ofOrder` and `ofAccount`.
    this.deeds = null;
  }

  // The script where it is the one of the report; what is wrong with it is told.
  joinScript() {
    if (this.script === null || this.report.kind !== 'report') return null;
    const why = mismatch(this.script, this.report);
    if (why === null) return this.script;
    this.notices.push(`${this.texts.script.name} is not the script of this report: ${why}. Its rows are not told beside the report’s.`);
    return null;
  }

  // The table of worth where it is that of the report; what is wrong with it is told.
  joinWorth() {
    if (this.texts.worth === undefined) return null;
    const { name, read } = this.texts.worth;
    const why = this.hasAccounts ? strayWorth(read, this.exchange) : null;
    if (why !== null) this.notices.push(`${name} is not the worth of these accounts: ${why}. It is not shown.`);
    return why === null ? read : null;
  }

  /** What a row asked of a market; null where the report's script is not there, or the row is no instruction. */
  askedBy(row, market) { return this.joined === null ? null : askedBy(this.joined, row, market); }

  /** A market's journal replayed with its script; null where the script is not there. */
  replay(market) {
    if (!this.replays.has(market.address)) this.replays.set(market.address, replayOf(this, market));
    return this.replays.get(market.address);
  }

  /** What each account of a market paid and earned; null where the script is not there. */
  dealings(market) {
    if (!this.allDealings.has(market.address)) this.allDealings.set(market.address, dealingsOf(this, market));
    return this.allDealings.get(market.address);
  }

  /** Whether a report or dump is there. */
  get hasAccounts() { return this.report.kind !== 'none'; }

  /** Whether an address is that of an owner of accounts or wallets. */
  isOwner(address) {
    if (this.owners === undefined) this.owners = new Set(personsOf(this.exchange));
    return this.owners.has(address);
  }

  /** The findings of all 13 kinds that the page makes of the accounts. */
  get findings() {
    if (this.audited === undefined) this.audited = auditOf(this.exchange);
    return this.audited;
  }
}
