// What stands above a table: copying it, taking it away as CSV.

import { element } from './elements.js';
import { pause } from './text.js';
import { cellText, linesOf } from './table_text.js';

const ROWS_A_SLICE = 500;

// The rows of a table as texts, its titles first; read in slices.
async function textsOf(table, tell) {
  const rows = [table.columns.map(({ title }) => title)];
  for (let position = 0; position < table.count; position += 1) {
    rows.push(table.rowAt(table.sourceOf(position)).cells.map(cellText));
    if (position % ROWS_A_SLICE === ROWS_A_SLICE - 1) {
      tell(`${position + 1} of ${table.count}`);
      await pause();
    }
  }
  return rows;
}

// Puts a text on the clipboard, by the old way where the new one is not allowed.
async function putOnClipboard(text) {
  try {
    await navigator.clipboard.writeText(text);
  } catch {
    const field = element('textarea', { class: 'hidden' });
    field.value = text;
    document.body.append(field);
    field.select();
    document.execCommand('copy');
    field.remove();
  }
}

/** Lets the browser keep a text, or bytes, as a file. */
export function keepAsFile(text, name) {
  const address = URL.createObjectURL(new Blob([text], { type: 'text/csv' }));
  const link = element('a', { href: address, download: name });
  link.click();
  setTimeout(() => URL.revokeObjectURL(address), 10000);
}

// The choice by which a table is sorted, for keys and for cards, which have no titles to click.
function sortChoice(table, label) {
  const name = (place, isFalling) => (place < 0 ? '' : `${place} ${isFalling ? 'falling' : 'rising'}`);
  const options = table.sortable.flatMap((place) => [false, true]
    .map((isFalling) => [name(place, isFalling), `${table.columns[place].short || table.columns[place].title} ${isFalling ? '▼' : '▲'}`]));
  const select = element('select', { 'aria-label': `Sort ${label}`, 'data-key': `sort ${label}`, 'change': () => {
    const [place, way] = select.value.split(' ');
    table.sortBy(select.value === '' ? -1 : Number(place), way === 'falling');
  } }, [['', 'not sorted'], ...options].map(([value, text]) => element('option', { value }, text)));
  table.onSort = ({ place, isFalling }) => { select.value = name(place, isFalling); };
  return select;
}

/** The choice and buttons of a table, and what they tell. */
export function toolsOf(table, label) {
  const told = element('span', { class: 'quiet', role: 'status' });
  const tell = (text) => { told.textContent = text; };
  const run = (isCsv) => async () => {
    const text = linesOf(await textsOf(table, tell), isCsv);
    if (isCsv) keepAsFile(text, `${label.replace(/[^A-Za-z0-9_]+/g, '_')}.csv`);
    else await putOnClipboard(text);
    tell(isCsv ? 'written as CSV' : 'copied');
  };
  return element('div', { class: 'tools' }, told, table.sortable.length === 0 ? null : sortChoice(table, label),
    element('button', { 'type': 'button', 'click': run(false), 'aria-label': `Copy ${label}`, 'data-key': `copy ${label}` }, 'Copy'),
    element('button', { 'type': 'button', 'click': run(true), 'aria-label': `CSV of ${label}`, 'data-key': `csv ${label}` }, 'CSV'));
}
