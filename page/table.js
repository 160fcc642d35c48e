// A table that holds the rows on screen alone, so that it can have as many as a report has. Wide, a row is a line of columns;
// narrow, a card of named values. Rows have one height, by the columns' lines.

import { counted } from './amounts.js';
import { element, withWidth } from './elements.js';
import { cellKey, compareKeys } from './table_text.js';
import { toolsOf } from './table_tools.js';

const LINE = 21;
const LEAST = 520;
const TALLEST = 8000000;
const MOST_SORTED = 20000;
const MOST_PRINTED = 2000;

// How many tables were made: each row of each has an id of its own.
let made = 0;

// How many lines a column takes in a card.
function narrowLines(column) { return column.narrowLines || column.lines || 1; }

// How high rows are.
function heightOf(columns, isNarrow) {
  if (!isNarrow) return 14 + LINE * Math.max(...columns.map((column) => column.lines || 1));
  const short = columns.filter((column) => !column.isWide).length;
  const wide = columns.filter((column) => column.isWide).reduce((lines, column) => lines + narrowLines(column), 0);
  return 18 + LINE * (Math.ceil(short / 2) + wide);
}

/**
 * A table of `count` rows; `rowAt` gives the cells of a row, and `select` hears of the row that was chosen. Below a width of
 * `least` it is narrow, and a column is called by its `short` title where it has one. A column's `key` gives what a row is sorted by;
 * without one it is the cell.
 */
export class Table {
  constructor({ label, columns, count, rowAt, select = () => {}, linkOf = () => null, empty = 'Nothing.', least = LEAST }) {
    Object.assign(this, { label, columns, count, rowAt, least, linkOf, onSelect: select, chosen: -1, isSought: false, height: 35 });
    made += 1;
    this.serial = made;
    this.order = null;
    this.isPaper = false;
    this.sorted = { place: -1, isFalling: false };
    const canSort = (column) => count > 1 && column.title !== '' && (column.key !== undefined || count <= MOST_SORTED);
    this.sortable = columns.map((column, place) => (canSort(column) ? place : -1)).filter((place) => place >= 0);
    this.onSort = () => {};
    this.head = element('div', { class: 'head row', role: 'row' }, columns.map((column, place) => this.title(column, place)));
    this.body = element('div', { class: 'rows', role: 'rowgroup' });
    this.grid = this.gridNode(empty);
    this.node = element('div', { class: 'boxed' }, toolsOf(this, label), this.grid);
    this.node.table = this;
    withWidth(this.grid, (width) => this.layout(width));
  }

  // The element that scrolls.
  gridNode(empty) {
    const { columns, count, label } = this;
    const grid = element('div', {
      'class': columns.some((column) => column.lines > 1) ? 'table tall' : 'table',
      'role': 'grid',
      'tabindex': '0',
      'aria-readonly': 'true',
      'aria-label': `${label}, ${counted(count, 'row')}`,
      'aria-rowcount': count + 1,
      'data-key': `table ${label}`,
      'scroll': () => this.draw(),
      'keydown': (event) => this.press(event),
    }, this.head, count === 0 ? element('p', { class: 'empty' }, empty) : this.body);
    grid.style.setProperty('--columns', columns.map((column) => column.size || '1fr').join(' '));
    return grid;
  }

  // A column's title; where rows can be sorted by it, as a button.
  title(column, place) {
    const sort = () => this.turnSort(place);
    const text = this.sortable.includes(place) ? element('button', { type: 'button', tabindex: '-1', click: sort, title: 'sort' }, column.title) : column.title;
    return element('span', { role: 'columnheader', class: column.isNumber ? 'number' : null }, text);
  }

  // Sorts by a column: rising, then falling, then as the rows stood.
  turnSort(place) {
    const { sorted } = this;
    if (sorted.place !== place) this.sortBy(place, false);
    else if (sorted.isFalling) this.sortBy(-1, false);
    else this.sortBy(place, true);
  }

  /** Sorts by the column of a place, rising or falling; as the rows stood where the place is below 0. */
  sortBy(place, isFalling) {
    this.sorted = { place, isFalling };
    this.order = place < 0 ? null : this.orderBy(this.columns[place], place);
    this.onSort(this.sorted);
    [...this.head.children].forEach((title, at) => {
      if (at !== this.sorted.place) title.removeAttribute('aria-sort');
      else title.setAttribute('aria-sort', this.sorted.isFalling ? 'descending' : 'ascending');
    });
    if (this.chosen >= 0) this.reveal(this.positionOf(this.chosen));
    this.draw();
  }

  // The rows in the order of a column's keys; equal ones stay as they stood.
  orderBy(column, place) {
    const key = column.key || ((at) => cellKey(this.rowAt(at).cells[place]));
    const keys = Array.from({ length: this.count }, (_, at) => key(at));
    const sign = this.sorted.isFalling ? -1 : 1;
    return Uint32Array.from(keys.keys()).sort((one, other) => sign * compareKeys(keys[one], keys[other]) || one - other);
  }

  /** The row that stands at a position. */
  sourceOf(position) { return this.order === null ? position : this.order[position]; }

  // The position of a row.
  positionOf(at) { return this.order === null ? at : this.order.indexOf(at); }

  // Fits rows to a width.
  layout(width) {
    const isNarrow = width < this.least;
    this.grid.classList.toggle('narrow', isNarrow);
    this.height = heightOf(this.columns, isNarrow);
    this.grid.style.setProperty('--row', `${this.height}px`);
    this.body.style.height = `${Math.min(this.count * this.height, TALLEST)}px`;
    if (this.chosen >= 0) this.reveal(this.positionOf(this.chosen));
    this.draw();
    this.seek();
  }

  // How many rows fit, and how far the first one is scrolled away, in rows.
  view() {
    const space = Math.max(this.grid.clientHeight - this.head.offsetHeight, this.height);
    const way = Math.min(this.count * this.height, TALLEST) - space;
    const fits = space / this.height;
    return { fits, way, first: way <= 0 ? 0 : (this.grid.scrollTop / way) * (this.count - fits) };
  }

  // Draws the rows on screen and a few around them; on paper all.
  draw() {
    if (this.isPaper) {
      this.drawAll();
      return;
    }
    const { fits, first } = this.view();
    const from = Math.max(0, Math.floor(first) - 3);
    const to = Math.min(this.count, Math.ceil(first + fits) + 3);
    const rows = [];
    for (let position = from; position < to; position += 1) {
      const row = this.row(position);
      row.style.top = `${this.grid.scrollTop + (position - first) * this.height}px`;
      rows.push(row);
    }
    this.body.replaceChildren(...rows);
  }

  /** Lets all rows stand one below the other, or those on screen alone again. */
  turnToPaper(isPaper) {
    this.isPaper = isPaper;
    this.draw();
  }

  // Draws all rows one below the other, up to some thousands.
  drawAll() {
    const rows = Array.from({ length: Math.min(this.count, MOST_PRINTED) }, (_, position) => this.row(position));
    const rest = this.count - rows.length;
    this.body.replaceChildren(...rows, rest === 0 ? '' : element('p', { class: 'empty' }, `${counted(rest, 'row')} more: take the table as CSV.`));
  }

  // The row at a position; a click chooses it.
  row(position) {
    const at = this.sourceOf(position);
    const { cells, name = null, mark = '' } = this.rowAt(at);
    const nodes = cells.map((cell, place) => {
      const column = this.columns[place];
      const style = [column.isNumber && 'number', column.isWide && 'wide'].filter(Boolean).join(' ');
      return element('span', { role: 'gridcell', class: `cell ${style}`, style: `--lines: ${narrowLines(column)}` },
        element('span', { class: 'name' }, column.short || column.title), element('span', { class: 'value' }, cell));
    });
    return element('div', {
      'id': `row-${this.serial}-${at}`,
      'class': `row ${mark}`,
      'role': 'row',
      'aria-rowindex': position + 2,
      'aria-selected': at === this.chosen ? 'true' : null,
      'data-row': name,
      'click': () => this.choose(at),
    }, nodes);
  }

  /** Chooses a row and scrolls to it; the page's address becomes the row's link, unless a link asked for the row. */
  choose(at, isByLink = false) {
    if (at < 0 || at >= this.count) return;
    this.chosen = at;
    this.isSought = true;
    if (isByLink) this.grid.dataset.sought = '';
    else if (this.linkOf(at) !== null) window.history.replaceState(null, '', this.linkOf(at));
    this.grid.setAttribute('aria-activedescendant', `row-${this.serial}-${at}`);
    this.onSelect(at);
    this.reveal(this.positionOf(at));
    this.draw();
    this.seek();
  }

  // Scrolls the page so that a row that was chosen is on screen.
  seek() {
    const row = this.isSought ? this.body.querySelector('[aria-selected]') : null;
    if (row !== null) row.scrollIntoView({ block: 'nearest', inline: 'nearest' });
  }

  // Scrolls so that the row at a position is on screen.
  reveal(position) {
    const { fits, way, first } = this.view();
    if (way <= 0 || (position >= first && position + 1 <= first + fits)) return;
    const wanted = position < first ? position : position + 1 - fits;
    this.grid.scrollTop = (Math.min(wanted, this.count - fits) / (this.count - fits)) * way;
  }

  // Follows the first link of the chosen row that leads elsewhere than to the row.
  follow() {
    const links = [...this.body.querySelectorAll('[aria-selected] a')];
    const link = links.find((one) => one.getAttribute('href') !== this.linkOf(this.chosen));
    if (link !== undefined) link.click();
  }

  // Moves the choice by keys; Enter follows a link.
  press(event) {
    const page = Math.max(1, Math.floor(this.view().fits) - 1);
    const steps = { ArrowDown: 1, ArrowUp: -1, PageDown: page, PageUp: -page, Home: -this.count, End: this.count };
    if (event.key in steps && event.target === this.grid && this.count > 0) {
      const now = this.chosen < 0 ? -1 : this.positionOf(this.chosen);
      this.choose(this.sourceOf(Math.min(this.count - 1, Math.max(0, now + steps[event.key]))));
      event.preventDefault();
    } else if (event.key === 'Enter' && event.target === this.grid) this.follow();
  }
}

/** Lets all tables of the page stand whole while it is printed. */
export function hearPrinting() {
  const turn = (isPaper) => () => { for (const { table } of document.querySelectorAll('.boxed')) table.turnToPaper(isPaper); };
  window.addEventListener('beforeprint', turn(true));
  window.addEventListener('afterprint', turn(false));
}
