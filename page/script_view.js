// The rows of a script in words, each with its text; the row at fault where the script was refused.

import { askedDetails, askedNode, swapNode } from './asked_nodes.js';
import { counted } from './amounts.js';
import { choice, element } from './elements.js';
import { askedBy } from './instructions.js';
import { linkTo, shortAddress } from './links.js';
import { notice, section, seekRow, tableWithDetails } from './parts.js';
import { setupWords } from './setup_words.js';

// A market of the script as far as its rows alone tell it, for amounts in native units.
function marketOfScript(shown, address) {
  const known = shown.exchange.markets.get(address);
  const none = { orders: [] };
  return known || { address, coinMint: '', pcMint: '', coinLot: 1n, pcLot: 1n, coinDecimals: null, pcDecimals: null, bids: none, asks: none };
}

// The market of a row, as a link into its journal where the report is there.
function placeNode(shown, { market, row }) {
  const href = shown.joined === null ? null : linkTo('journal', market, { row });
  return [element(href === null ? 'span' : 'a', { href, title: market }, shortAddress(market)), ' '];
}

// What an instruction row asked for, and where.
function instructionCells(shown, script, row) {
  const asked = askedBy(script, row, null);
  const clock = script.clockAt(row);
  const marketOf = (address) => marketOfScript(shown, address);
  const lane = `lane ${asked.lane}`;
  if (asked.other === null) {
    return { what: askedNode(shown, marketOf(asked.market), asked), place: [placeNode(shown, asked), lane], details: askedDetails(shown, asked, clock) };
  }
  const ofLeg = (title, leg) => askedDetails(shown, leg, clock).map(([name, value]) => [`${title}: ${name}`, value]);
  return {
    what: swapNode(shown, asked, marketOf),
    place: [placeNode(shown, asked), placeNode(shown, asked.other), lane],
    details: [...ofLeg('First leg', asked), ...ofLeg('Second leg', asked.other)],
  };
}

// One row's cells.
function scriptRow(shown, script, row) {
  const fields = script.fieldsOf(row);
  const line = script.lineOf(row);
  const isInstruction = script.kinds[row] > 0;
  const told = isInstruction ? instructionCells(shown, script, row) : { what: setupWords(fields) || 'a row of no known form', place: '', details: [] };
  return {
    name: `script ${row}`,
    mark: shown.answer !== null && shown.answer.kind === 'script' && Number(shown.answer.row) === row ? 'refused' : '',
    cells: [row, told.what, told.place, element('code', {}, line.length > 160 ? `${line.slice(0, 150)}…` : line)],
    details: told.details,
  };
}

// The rows that pass the filters: all, or instructions of a name or signer.
function scriptRows(script, words) {
  const rows = [];
  const name = words.asked === undefined ? 0 : script.placed.get(words.asked) || -1;
  const signer = words.signer === undefined ? 0 : script.placed.get(words.signer) || -1;
  for (let row = 1; row <= script.count; row += 1) {
    if (name !== 0 && script.names[row] !== name) continue;
    if (signer === 0 || script.signers[row] === signer) rows.push(row);
  }
  return rows;
}

/** The choices by which rows of a script are filtered: what was asked, and who signed. */
export function scriptChoices(script, words, go) {
  const { names, signers } = script.used();
  return [
    choice('Asked', [['', 'all'], ...names.map((one) => [one, one])], words.asked || '', go('asked')),
    choice('Signer', [['', 'all'], ...signers.map((one) => [one, shortAddress(one)])], words.signer || '', go('signer')),
  ];
}

/** The view of a script; `words` are filters and the row to choose. */
export function scriptView(shown, subject, words) {
  const { script } = shown;
  const rows = scriptRows(script, words);
  const go = (name) => (value) => { window.location.hash = linkTo('script', '', { ...words, row: null, [name]: value }); };
  // A swap tells both legs in one row.
  const more = Number(script.swaps > 0);
  const table = tableWithDetails({
    label: 'Rows of the script',
    columns: [
      { title: 'Row', isNumber: true, size: '4.5rem' },
      { title: 'Says', size: '2fr', isWide: true, lines: 3 + more, narrowLines: 5 + 2 * more },
      { title: 'Market', size: '7.5rem', lines: 2 + more, narrowLines: 2 + more },
      { title: 'Text', size: '1.6fr', isWide: true, lines: 2, narrowLines: 3 },
    ],
    count: rows.length,
    least: 760,
    empty: 'No row passes the filters.',
    linkOf: (at) => linkTo('script', '', { ...words, row: rows[at] }),
    rowAt: (at) => scriptRow(shown, script, rows[at]),
  });
  const sought = words.row === undefined && shown.answer !== null && shown.answer.kind === 'script' ? shown.answer.row : words.row;
  return [
    sought === undefined ? null : seekRow(table, rows.indexOf(Number(sought)), `row ${sought}`),
    shown.joined === null && shown.report.kind === 'report' ? notice('The report is not that of this script.') : null,
    section(`${counted(rows.length, 'row')} of ${counted(script.count, 'row')}`,
      element('div', { class: 'filters' }, scriptChoices(script, words, go)), table.node),
  ];
}
