// Findings of an audit in words, each with a link to the slot, event, order, word or vault that it tells.

import { numberNode } from './amounts.js';
import { element } from './elements.js';
import { FINDINGS } from './faults.js';
import { addressNode, linkTo } from './links.js';
import { tableWithDetails } from './parts.js';

// The words and amounts that findings tell by a place of an account.
const WORDS = {
  7: { 85: 'native_coin_total', 101: 'native_pc_total' },
  8: { 149: 'coin_deposits_total', 197: 'pc_deposits_total' },
  9: { 64: 'amount' },
  10: { 373: 'referrer_rebates_accrued' },
  11: { 64: 'amount' },
  12: { 36: 'supply' },
};

// The side that an account is, as a link's words; null where it is none.
function sideOf(account) {
  return account !== undefined && ['bids', 'asks'].includes(account.part) ? account.part : null;
}

// Where a finding stands: what it is called there, and the fragment that shows it.
function placeOf(shown, { kind, account, place }) {
  const known = shown.exchange.accounts.get(account);
  const side = sideOf(known);
  if ([2, 3, 5, 6].includes(kind)) return [`slot ${place}`, linkTo('bytes', account, { place: 141 + 16 * place })];
  if (kind === 4) return [`event ${place}`, known === undefined ? null : linkTo('events', known.market, { place })];
  if ([1, 13].includes(kind)) return [`order ${place} in book order`, side === null ? null : linkTo('book', known.market, { side, place })];
  const word = WORDS[kind][place];
  return [word === undefined ? `place ${place}` : word, linkTo('bytes', account, { place })];
}

// What a finding's place leads to besides: the vaults of its market, or the account among the traders.
function besides(shown, { kind, account }) {
  const known = shown.exchange.accounts.get(account);
  if (known === undefined) return null;
  if (kind === 7 || [2, 3, 5, 6].includes(kind)) {
    const market = [...shown.exchange.markets.values()].find(({ traders }) => traders.has(account));
    return market === undefined ? null : element('a', { href: linkTo('traders', market.address, { account }) }, 'among the traders');
  }
  const market = known.market || (known.kind === 'market' ? account : null);
  return market === null || kind < 8 || kind > 12 ? null : element('a', { href: linkTo('vaults', market) }, 'the sums');
}

// One finding's cells.
function findingRow(shown, finding, at) {
  const told = FINDINGS[finding.kind] || ['of no known kind', 'The page knows no such kind.', '', ''];
  const [place, href] = FINDINGS[finding.kind] ? placeOf(shown, finding) : [`place ${finding.place}`, null];
  const isThere = href !== null && shown.exchange.accounts.has(finding.account);
  return {
    name: `finding ${at}`,
    mark: 'refused',
    cells: [
      finding.kind,
      told[1],
      addressNode(shown, finding.account),
      isThere ? element('a', { href }, place) : place,
      numberNode(finding.found, null, told[2]),
      numberNode(finding.wanted, null, told[3]),
      besides(shown, finding) || '',
    ],
    details: [
      ['Found is', told[2]],
      ['Wanted is', told[3]],
      ['Account', finding.account],
      ['Line', element('code', {}, `finding ${finding.kind} ${finding.account} ${finding.place} ${finding.found} ${finding.wanted}`)],
    ],
  };
}

/** Findings as a table; each place is a link where the account is there. */
export function findingTable(shown, findings, label) {
  return tableWithDetails({
    label,
    columns: [
      { title: 'Kind', isNumber: true, size: '3rem' },
      { title: 'What disagrees', isWide: true, size: '2.4fr', lines: 3, narrowLines: 4 },
      { title: 'Account', isWide: true, size: 'minmax(7rem, 1fr)', lines: 2, narrowLines: 1 },
      { title: 'Place', isWide: true, size: 'minmax(8rem, 1fr)', lines: 2, narrowLines: 1 },
      { title: 'Found', isNumber: true, isWide: true, size: 'minmax(8rem, 1.2fr)', lines: 2, narrowLines: 1 },
      { title: 'Wanted', isNumber: true, isWide: true, size: 'minmax(8rem, 1.2fr)', lines: 2, narrowLines: 1 },
      { title: 'See also', isWide: true, size: '6.5rem', lines: 2, narrowLines: 1 },
    ],
    count: findings.length,
    least: 860,
    empty: 'Nothing was found.',
    rowAt: (at) => findingRow(shown, findings[at], at),
  });
}
