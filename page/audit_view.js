// What the page's own audit of the accounts finds, beside what ./dex audit told where that text is there too.

import { findingLine } from './audit.js';
import { counted } from './amounts.js';
import { element } from './elements.js';
import { FINDINGS } from './faults.js';
import { findingTable } from './finding_nodes.js';
import { linkTo } from './links.js';
import { section } from './parts.js';

const UNCHECKED = 'What an account must be by itself (which ./dex audit tells as “dump refused”) is checked only as far as reading it needs.';

/** The verdict over all 13 kinds, as a link to the findings. */
export function verdictNode(shown) {
  const { length } = shown.findings;
  const text = length === 0 ? 'Audit: all 13 kinds of findings were looked for, and there is none.'
    : `Audit: ${counted(length, 'finding')}, of ${counted(new Set(shown.findings.map(({ kind }) => kind)).size, 'kind')}.`;
  return element('p', { 'class': length === 0 ? 'verdict good' : 'verdict bad', 'role': 'status', 'data-name': 'audit' },
    element('a', { href: linkTo('audit') }, text));
}

// How often each kind is found.
function kindList(findings) {
  const counts = FINDINGS.slice(1).map(([name], at) => [`${at + 1} ${name}`, findings.filter(({ kind }) => kind === at + 1).length]);
  return element('ul', { class: 'kinds' }, counts.map(([name, count]) => element('li', { class: count === 0 ? 'quiet' : 'bad' },
    `${name}: ${count === 0 ? 'none' : count}`)));
}

// Whether the program's answer says the same as the page found.
function comparison(shown) {
  const { answer } = shown;
  if (answer === null || !['fine', 'findings'].includes(answer.kind)) return null;
  const told = (answer.findings || []).map(findingLine).join('\n');
  const isSame = told === shown.findings.map(findingLine).join('\n');
  return element('p', { 'class': isSame ? 'verdict good' : 'verdict bad', 'data-name': 'comparison' },
    isSame ? 'The text that ./dex audit wrote says the same.' : 'The text that ./dex audit wrote says otherwise, so it is of another dump: ',
    isSame ? null : element('a', { href: linkTo('answer') }, 'see it'));
}

/** The view of the audit. */
export function auditView(shown) {
  return [
    verdictNode(shown),
    comparison(shown),
    element('p', { class: 'hint' }, UNCHECKED),
    shown.findings.length === 0 ? null : section('Findings', findingTable(shown, shown.findings, 'Findings').node),
    section('All kinds', kindList(shown.findings)),
  ];
}
