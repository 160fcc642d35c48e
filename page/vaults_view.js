// The vaults of a market beside the sums of what they must hold, part by part, and each mint's supply beside who holds it.

import { amountNode, mintAmountNode } from './amounts.js';
import { verdictNode } from './audit_view.js';
import { element } from './elements.js';
import { addressNode } from './links.js';
import { section } from './parts.js';
import { supplySums, vaultSums } from './sums.js';

// What a sum is called: the words of a layout as they stand, others with a capital.
function sumTitle(shown, { name, account }) {
  if (account !== undefined) return ['Supply of ', addressNode(shown, account)];
  return name.includes('_') ? name : name[0].toUpperCase() + name.slice(1);
}

// What a part of a sum is called, with a link to the account that holds it.
function partTitle(shown, { name, account }) {
  return account === undefined ? name : [`${name} `, addressNode(shown, account)];
}

// A sum as a table: its parts, their sum, what was found, and the difference.
function sumTable(shown, sum, amount) {
  const line = (name, value, mark = '') => element('tr', { class: mark },
    element('th', { scope: 'row' }, name), element('td', { class: 'number' }, value));
  const mark = sum.difference === 0n ? 'good' : 'bad';
  return element('table', { class: 'sum' },
    element('caption', {}, sumTitle(shown, sum)),
    element('tbody', {},
      sum.parts.map((part) => line(partTitle(shown, part), amount(part.amount, `${sum.name}: ${part.name}`))),
      line('Sum', amount(sum.sum, `${sum.name} sum`), 'total'),
      line('Found in the account', amount(sum.found, `${sum.name} found`)),
      line('Difference', amount(sum.difference, `${sum.name} difference`), mark)));
}

/** The view of a market's vaults and of all mints. */
export function vaultsView(shown, market) {
  const sums = vaultSums(market);
  const supplies = supplySums(shown.exchange);
  const off = [...sums, ...supplies].filter((sum) => sum.difference !== 0n);
  const verdict = off.length === 0
    ? 'Every sum below is what was found.'
    : `These are not what was found: ${off.map((sum) => sum.name).join('; ')}.`;
  // Sums that add up are no good news while slots, events or totals disagree: the audit's verdict stands first then, alone in colour.
  const mark = off.length > 0 ? 'bad' : 'good';
  return [
    verdictNode(shown),
    element('p', { 'class': `verdict ${shown.findings.length > 0 && off.length === 0 ? '' : mark}`, 'role': 'status', 'data-name': 'sums' }, verdict),
    section(['What the vaults of ', addressNode(shown, market.address), ' must hold'],
      element('div', { class: 'sums' }, sums.map((sum) => sumTable(shown, sum, (value, name) => amountNode(value, sum.token, market, name))))),
    section('What holds each mint’s supply',
      element('div', { class: 'sums' }, supplies.map((sum) => sumTable(shown, sum, (value, name) => mintAmountNode(shown, value, sum.account, name))))),
  ];
}
