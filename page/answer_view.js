// What a command answered where it wrote no report: the whole of it, with what each line means and how a fault is mended.

import { counted, numberNode } from './amounts.js';
import { element } from './elements.js';
import { DUMP_FAULTS, scriptFaultWords } from './faults.js';
import { findingTable } from './finding_nodes.js';
import { addressNode, linkTo } from './links.js';
import { facts, section } from './parts.js';
import { Table } from './table.js';

// A sentence of what went wrong, as the page's loudest.
function verdict(text, mark = 'bad') {
  return element('p', { 'class': `verdict ${mark}`, 'role': 'status', 'data-name': 'answer' }, text);
}

// The text of a row of the script, where that is there.
function scriptLine(shown, row) {
  if (shown.script === null) return 'open the script too, and it is shown';
  return Number(row) > shown.script.count ? 'the script has no such row' : element('code', {}, shown.script.lineOf(Number(row)));
}

// A refused script: the row, what it has, how to mend it.
function scriptAnswer(shown, answer) {
  const { name, what, remedy } = scriptFaultWords(answer, shown.script === null ? [] : shown.script.fieldsOf(Number(answer.row)));
  return [
    verdict(`The script is refused at row ${answer.row}: ${what}.`),
    facts([
      ['Row', shown.script === null ? answer.row : element('a', { href: linkTo('script', '', { row: answer.row }) }, answer.row)],
      ['Its text', scriptLine(shown, answer.row)],
      ['Fault', `${answer.k} ${name}${answer.code === undefined ? '' : `, setup code ${answer.code}`}`],
      ['How to mend it', remedy],
    ]),
  ];
}

// The account that a refused dump tells, and a link to the place in it where the page could read it.
function faultyPlace(shown, answer) {
  const account = shown.exchange.accounts.get(answer.placed);
  if (account === undefined) return answer.place;
  const isPlace = !['6', '8', '9'].includes(answer.k);
  return isPlace ? element('a', { href: linkTo('bytes', answer.placed, { place: answer.place }) }, answer.place) : answer.place;
}

// A refused dump: the row, the account, the place, what was found and wanted.
function dumpAnswer(shown, answer) {
  const [name, what] = DUMP_FAULTS[answer.k] || [answer.name, 'the page knows no such fault'];
  return [
    verdict(`The dump is refused at row ${answer.row}: ${what}.`),
    facts([
      ['Row', answer.row],
      ['Fault', `${answer.k} ${name}`],
      ['Account', answer.placed === '-' ? 'none told' : addressNode(shown, answer.placed)],
      [{ 6: 'Node', 8: 'Event', 9: 'Slot or place' }[answer.k] || 'Place', faultyPlace(shown, answer)],
      ['Found', numberNode(answer.found)],
      ['Wanted', numberNode(answer.wanted)],
    ]),
  ];
}

// A refused migration: the market's part that does not fit.
function migrateAnswer(shown, answer) {
  return [
    verdict(`The accounts do not fit the sizes to migrate to: the ${answer.what} of ${answer.market} need more room.`),
    facts([
      ['Market', addressNode(shown, answer.market)],
      ['Needed', numberNode(answer.needed)],
      ['Given', numberNode(answer.given)],
      ['How to mend it', answer.what === 'events' ? 'Ask for more events, or crank the queue first.' : 'Ask for more nodes, or cancel orders first.'],
    ]),
  ];
}

// The summary of bulk.
function bulkAnswer(shown, answer) {
  const columns = ['market', 'bids', 'asks', 'events', 'coin', 'pc', 'fees'];
  const titles = ['Market', 'Bids', 'Asks', 'Events', 'Coin vault', 'Pc vault', 'Pc fees'];
  return [
    verdict(`Script number ${answer.number} was made and replayed: ${counted(answer.rows, 'row')} behind its 16 that open accounts.`, 'good'),
    facts([['Accepted', numberNode(answer.accepted)], ['Refused', numberNode(answer.refused)]]),
    new Table({
      label: 'Markets of the made script',
      columns: titles.map((title, at) => ({ title, isNumber: at > 0 })),
      count: answer.markets.length,
      rowAt: (at) => ({
        name: `bulk ${answer.markets[at].market}`,
        cells: columns.map((name, place) => (place === 0 ? answer.markets[at].market : numberNode(answer.markets[at][name]))),
      }),
    }).node,
  ];
}

// The findings of an audit.
function findingsAnswer(shown, answer) {
  const hint = shown.hasAccounts ? 'Each place is a link to where it is.' : 'Open the dump too, and each place is a link to where it is.';
  return [
    verdict(`The audit found ${counted(answer.findings.length, 'place')} where accounts disagree.`),
    section('Findings', element('p', { class: 'hint' }, hint), findingTable(shown, answer.findings, 'Findings of the audit').node),
  ];
}

const VIEWS_OF = {
  script: scriptAnswer,
  dump: dumpAnswer,
  migrate: migrateAnswer,
  bulk: bulkAnswer,
  findings: findingsAnswer,
  fine: (shown, { markets, wallets }) => [verdict(`The audit found nothing: ${counted(markets, 'market')}, ${counted(wallets, 'wallet')}.`, 'good')],
  short: (shown, { says }) => [verdict(says)],
};

/** The view of what a command answered. */
export function answerView(shown) {
  const { answer } = shown;
  return [
    ...VIEWS_OF[answer.kind](shown, answer),
    facts([['Exit status', answer.status]]),
  ];
}
