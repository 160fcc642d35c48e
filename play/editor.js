// The field for a script: its text, beside it the numbers of its rows and how each was answered, and a mark on the row that is at fault.

import { element } from '../page/elements.js';
import { recordStarts } from '../page/script.js';
import { lastUpTo, lineStarts } from './source.js';

const LINE_HEIGHT = 20;

/** The field; `change` is told of changes of the text by a hand, `move` of moves of the caret. */
export class Editor {
  constructor({ change, move }) {
    this.onChange = change;
    this.onMove = move;
    // Rows of the script that stand before the field's text, and marks of rows by their numbers.
    this.before = 0;
    this.marks = new Map();
    this.fault = null;
    this.area = element('textarea', {
      'id': 'rows', 'aria-label': 'Rows of the script', 'aria-describedby': 'help', 'spellcheck': 'false', 'autocapitalize': 'off', 'autocomplete': 'off',
      'wrap': 'off', 'data-key': 'rows', 'input': () => this.heard(), 'scroll': () => this.draw(),
    });
    this.gutter = element('div', { 'class': 'gutter', 'aria-hidden': 'true' });
    this.band = element('div', { 'class': 'band', 'aria-hidden': 'true', 'hidden': true });
    this.node = element('div', { class: 'rows-field' }, this.gutter, element('div', { class: 'lines' }, this.band, this.area));
    document.addEventListener('selectionchange', () => { if (document.activeElement === this.area) this.moved(); });
    for (const name of ['keyup', 'click', 'focus']) this.area.addEventListener(name, () => this.moved());
    new ResizeObserver(() => this.draw()).observe(this.area);
    this.index();
  }

  /** Puts another text into the field. */
  setText(text) {
    this.area.value = text;
    this.area.scrollTop = 0;
    this.area.setSelectionRange(0, 0);
    this.index();
  }

  // Notes the text, and where its lines and rows begin. The area tells its text slowly where it is long, so that it is asked once.
  index() {
    /** The text. */
    this.text = this.area.value;
    this.lines = lineStarts(this.text);
    this.starts = recordStarts(this.text);
    this.draw();
  }

  // The text was changed by a hand.
  heard() {
    this.index();
    this.onChange();
    this.moved();
  }

  // The caret moved.
  moved() {
    const { selectionStart } = this.area;
    if (selectionStart === this.lastPlace && this.text.length === this.lastLength) return;
    [this.lastPlace, this.lastLength] = [selectionStart, this.text.length];
    this.onMove();
    this.draw();
  }

  /** The line of the caret: its number, its text, and the caret's column in it. */
  caret() {
    const place = this.area.selectionStart;
    const number = lastUpTo(this.lines, place);
    const from = this.lines[number];
    const end = this.text.indexOf('\n', from);
    return { number, from, text: this.text.slice(from, end < 0 ? this.text.length : end), column: place - from };
  }

  /** The number of the row that begins in a line; null where none does. */
  rowOfLine(number) {
    const end = number + 1 < this.lines.length ? this.lines[number + 1] : this.text.length + 1;
    const at = lastUpTo(this.starts, end - 1);
    return at < 0 || this.starts[at] < this.lines[number] ? null : this.before + at + 1;
  }

  // The line in which a row begins; -1 where the field has no such row.
  lineOfRow(row) {
    const start = this.starts[row - this.before - 1];
    return start === undefined ? -1 : lastUpTo(this.lines, start);
  }

  /** Marks the row at fault, or none. */
  setFault(row) {
    this.fault = row;
    this.draw();
  }

  /** Marks rows, each by a word. */
  setMarks(marks) {
    this.marks = marks;
    this.draw();
  }

  /** Goes to a row and selects it; without the focus the caret stands behind it. */
  goToRow(row, isFocused = true) {
    const line = this.lineOfRow(row);
    if (line < 0) return;
    const from = this.lines[line];
    const end = this.text.indexOf('\n', from);
    const behind = end < 0 ? this.text.length : end;
    if (isFocused) this.area.focus();
    this.area.setSelectionRange(isFocused ? from : behind, behind);
    this.area.scrollTop = Math.max(0, line * LINE_HEIGHT - this.area.clientHeight / 2);
    this.area.scrollLeft = 0;
    this.moved();
  }

  /** Puts a text in the place of another, so that it can be undone. */
  put(from, to, text) {
    this.area.focus({ preventScroll: true });
    this.area.setSelectionRange(from, to);
    // The only way that keeps what can be undone; where a browser has it no more, the text is put there without.
    const isDone = document.execCommand(text === '' ? 'delete' : 'insertText', false, text);
    if (!isDone) this.area.setRangeText(text, from, to, 'end');
    this.heard();
  }

  /** Scrolls to the end. */
  showEnd() { this.area.scrollTop = this.area.scrollHeight; }

  // Draws the numbers of the lines on screen, and the band over the row at fault.
  draw() {
    const { scrollTop, clientHeight } = this.area;
    const first = Math.floor(scrollTop / LINE_HEIGHT);
    const last = Math.min(this.lines.length, first + Math.ceil(clientHeight / LINE_HEIGHT) + 1);
    const caret = document.activeElement === this.area ? this.caret().number : -1;
    const numbers = [];
    for (let line = first; line < last; line += 1) numbers.push(this.numberNode(line, line === caret));
    const shift = element('div', {}, numbers);
    shift.style.transform = `translateY(${first * LINE_HEIGHT - scrollTop}px)`;
    this.gutter.replaceChildren(shift);
    this.gutter.style.width = `${String(this.before + this.starts.length).length + 3.5}ch`;
    const line = this.fault === null ? -1 : this.lineOfRow(this.fault);
    this.band.hidden = line < first || line >= last;
    this.band.style.top = `${line * LINE_HEIGHT - scrollTop}px`;
  }

  // The number of a line's row, with its mark.
  numberNode(line, isCaret) {
    const row = this.rowOfLine(line);
    const mark = row === null ? '' : row === this.fault ? 'fault-row' : this.marks.get(row) || '';
    return element('span', { class: [mark, isCaret ? 'caret' : ''].join(' ').trim() || null }, row === null ? ' ' : String(row));
  }
}
