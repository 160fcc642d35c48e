// A market's journal: each entry with what its row asked, where the script is there, and what was answered.

import { askedDetails, askedNode } from './asked_nodes.js';
import { counted } from './amounts.js';
import { element } from './elements.js';
import { isFiltered, journalChoices, passing } from './journal_filters.js';
import { entryNode, linkTo } from './links.js';
import { notice, section, seekRow, tableWithDetails } from './parts.js';
import { moveNode, otherLegFacts, replyTitle, sentenceNode } from './sentences.js';
import { otherLeg } from './swaps.js';
import { grouped } from './units.js';

// The wallets of an entry; those that it only looks at can be left out.
function movesNode(shown, market, entry, words) {
  const moves = words.probes === 'hidden' ? entry.moves.filter(({ kind }) => kind !== 'probe') : entry.moves;
  return element('span', { class: 'moves' }, moves.map((move) => [moveNode(shown, market, entry, move), ' ']));
}

// The short name of a reply; without the script it tells what a row's words would, that the entry is a leg of a swap.
function replyNode(shown, market, entry) {
  const other = shown.joined === null ? otherLeg(shown.report, entry.row, market.address) : null;
  return other === null ? replyTitle(entry) : [`${replyTitle(entry)}, swap with `, entryNode(other.address, entry.row)];
}

// One entry's cells; with the script what was asked stands in front of what happened.
function entryRow(shown, market, journal, at, words) {
  const entry = journal.at(at);
  const asked = shown.askedBy(entry.row, market.address);
  const answer = sentenceNode(shown, market, entry);
  const line = journal.first + at;
  return {
    name: `row ${entry.row}`,
    mark: entry.refusal > 0 ? 'refused' : '',
    cells: [
      entry.row,
      entry.lane,
      ...(shown.joined === null ? [] : [asked === null ? '' : askedNode(shown, market, asked)]),
      replyNode(shown, market, entry),
      answer,
      movesNode(shown, market, entry, words),
    ],
    details: [
      ...(asked === null ? [] : askedDetails(shown, asked, shown.joined.clockAt(entry.row))),
      ...otherLegFacts(shown, market, entry.row),
      ['Order id', entry.values.id || entry.values.order || 'none told'],
      ['Line', element('code', {}, `${line}: ${journal.lines.at(line)}`)],
    ],
  };
}

// The columns, with the script or without.
function journalColumns(shown, journal, numbers) {
  const hasScript = shown.joined !== null;
  const hasSwaps = shown.report.swaps.size > 0;
  const lines = (hasScript ? 3 : 2) + Number(hasScript && hasSwaps);
  const reply = (at) => 100 * journal.kinds[numbers[at]] + journal.refusals[numbers[at]];
  return [
    { title: 'Row', isNumber: true, size: '4.2rem', key: (at) => journal.rows[numbers[at]] },
    { title: 'Lane', isNumber: true, size: '3rem', key: (at) => journal.lanes[numbers[at]] },
    ...(hasScript ? [{ title: 'Who did what', size: '1.7fr', isWide: true, lines, narrowLines: 4 + Number(hasSwaps) }] : []),
    { title: 'Reply', size: hasScript ? '9.2rem' : '11.5rem', isWide: true, lines, narrowLines: hasSwaps && !hasScript ? 2 : 1, key: reply },
    { title: 'What happened', size: '1.7fr', isWide: true, lines, narrowLines: 4 },
    { title: 'Wallets', size: '1.1fr', isWide: true, lines, narrowLines: 3 },
  ];
}

// What the filter by account takes, in words.
function accountHint(shown) {
  return shown.joined !== null ? 'An account’s entries are those whose rows name or sign with it, or name it among their wallets.'
    : 'An account’s entries are those that name it, its owner’s wallets, or orders of it that rest or are pending: a report does not tell '
      + 'who signed a row. Open its script too, and each row tells who did what.';
}

/** The view of a market's journal; words are the filters and a row to choose. */
export function journalView(shown, market, words) {
  const journal = shown.report.markets.get(market.address);
  if (journal === undefined) return [element('p', { class: 'empty' }, 'A dump has no journal. A report has one for each market.')];
  const numbers = passing(shown, market, journal, words);
  const table = tableWithDetails({
    label: `Journal of ${market.address}`,
    columns: journalColumns(shown, journal, numbers),
    count: numbers.length,
    least: shown.joined === null ? 900 : 1100,
    empty: 'No entry passes the filters.',
    linkOf: (at) => linkTo('journal', market.address, { ...words, row: journal.rows[numbers[at]] }),
    rowAt: (at) => entryRow(shown, market, journal, numbers[at], words),
  });
  const told = words.row === undefined ? null : seekRow(table, numbers.findIndex((at) => String(journal.rows[at]) === words.row), `row ${words.row}`);
  return [
    told,
    isFiltered(words) && told !== null ? notice('Entries that do not pass the filters are not looked at.') : null,
    section(`${grouped(numbers.length)} of ${counted(journal.count, 'entry', 'entries')}`,
      journalChoices(shown, market, journal, words),
      element('p', { class: 'hint' }, `${accountHint(shown)} Each wallet leads to its movement.`),
      table.node),
  ];
}
