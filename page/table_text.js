// A table as text: what its cells say, for copying, for CSV and for sorting.

import { element } from './elements.js';

// A cell as a node.
function cellNode(cell) { return element('span', {}, cell); }

/** What a cell says as text: numbers as plain digits, addresses in full. */
export function cellText(cell) {
  if (typeof cell === 'string' || typeof cell === 'number' || typeof cell === 'bigint') return String(cell);
  const node = cellNode(cell);
  for (const number of node.querySelectorAll('data')) number.textContent = number.value;
  for (const unit of node.querySelectorAll('.lots')) unit.remove();
  for (const address of node.querySelectorAll('.address[title]')) address.textContent = address.title;
  for (const line of node.querySelectorAll('.line, li')) line.append(' ');
  return node.textContent.replace(/\s+/g, ' ').replace(/ (?=[,.;](\s|$))/g, '').trim();
}

/** What a cell is sorted by: its number where it holds just one, else its text. */
export function cellKey(cell) {
  if (typeof cell === 'number' || typeof cell === 'bigint') return BigInt(cell);
  const node = cellNode(cell);
  const numbers = node.querySelectorAll('data');
  if (numbers.length === 1 && /^-?[0-9]+$/.test(numbers[0].value)) return BigInt(numbers[0].value);
  const text = cellText(cell);
  return /^-?[0-9]+$/.test(text) ? BigInt(text) : text.replace(/^row ([0-9]+)$/, (_, row) => row.padStart(12, '0'));
}

/** Which of two keys stands first: numbers before texts. */
export function compareKeys(one, other) {
  const isText = typeof one === 'string';
  if (isText !== (typeof other === 'string')) return isText ? 1 : -1;
  if (one === other) return 0;
  return one < other ? -1 : 1;
}

// A text that a spreadsheet may take for a formula, with a quote in front; a number is none.
function guarded(text) { return /^[-=+@\t\r\n]/.test(text) && !/^-[0-9]+(\.[0-9]+)?$/.test(text) ? `'${text}` : text; }

// A field of CSV.
function csvField(text) {
  const safe = guarded(text);
  return /[",\r\n]/.test(safe) ? `"${safe.replace(/"/g, '""')}"` : safe;
}

// A field of a text that is copied.
function copiedField(text) { return guarded(text).replace(/[\t\r\n]/g, ' '); }

/** Rows of texts as lines, their fields joined by tabs or by commas. */
export function linesOf(rows, isCsv) {
  const field = isCsv ? csvField : copiedField;
  return rows.map((texts) => texts.map(field).join(isCsv ? ',' : '\t')).join(isCsv ? '\r\n' : '\n') + (isCsv ? '\r\n' : '\n');
}
