// Opening texts: one of each kind stays, a new report or dump takes the place of the old one.

import { counted } from './amounts.js';
import { LedgerFault, takeLedgerFiles } from './ledger_json.js';
import { Shown } from './shown.js';
import { LineFault } from './text.js';
import { readGiven } from './texts.js';

/** What is wrong with a text, as a sentence. */
export function faultText(fault) {
  if (fault instanceof LedgerFault) return `${fault.message[0].toUpperCase()}${fault.message.slice(1)}.`;
  return fault instanceof LineFault ? `Line ${fault.line}: ${fault.message}` : `The page failed: ${fault.message}`;
}

// Adds a text that was read to those that are there.
function take(texts, one) {
  if (one.kind === 'report') delete texts.dump;
  if (one.kind === 'dump') delete texts.report;
  texts[one.kind] = one;
}

/**
 * Reads texts one after the other and adds them to those that are there; answers them all, and those that have a fault. `tell` takes what is
 * read, and how much of it was read, from 0 to 1. `before` is a report that was read before, of which much may stand in a text again.
 */
export async function addTexts(old, given, tell, before = null) {
  const texts = { ...old };
  const { names, others, looked, faulty } = takeLedgerFiles(given, old.accounts === undefined ? [] : old.accounts.read.accounts);
  if (looked !== null) texts.accounts = { name: names, kind: 'accounts', read: looked, fault: null };
  if (looked !== null && looked.dump !== null) others.push({ name: `the accounts of ${names}`, text: looked.dump });
  for (const one of others) {
    const read = await readGiven(one, (line, part) => tell(`Reading ${one.name}: line ${line}…`, part), before);
    if (read.fault === null) take(texts, read);
    else faulty.push(read);
  }
  return { texts, faulty, shown: Object.keys(texts).length === 0 ? null : new Shown(texts) };
}

/** What is on the page, in words. */
export function toldTexts({ texts, report }) {
  const { markets, wallets } = report.exchange;
  const sizes = `${counted(markets.size, 'market')}, ${counted(wallets.size, 'wallet')}`;
  return Object.values(texts).map(({ name, kind, read }) => {
    if (kind === 'report') return `${name}: a report of ${counted(read.rows, 'row')}, ${sizes}`;
    if (kind === 'dump') return `${name}: a dump, ${sizes}`;
    if (kind === 'accounts') return `${name}: ${counted(read.accounts.size, 'account')} of a ledger`;
    if (kind === 'script') return `${name}: a script of ${counted(read.count, 'row')}`;
    if (kind === 'worth') return `${name}: the worth of ${counted(read.rows.length, 'account')}`;
    return `${name}: what a command answered`;
  }).join('; ');
}
