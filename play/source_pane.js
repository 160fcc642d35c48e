// The left half of the page: the field for the script with what helps to write it, examples, files, and the form for a row.

import { counted } from '../page/amounts.js';
import { choice, element } from '../page/elements.js';
import { keepAsFile } from '../page/table_tools.js';
import { grouped } from '../page/units.js';
import { knownOf } from './declared.js';
import { laneOf } from './deeds.js';
import { Editor } from './editor.js';
import { Help } from './help.js';
import { hintAt } from './hints.js';
import { RowForm } from './row_form.js';
import { Source } from './source.js';

// From how many characters on a change waits for the next one, and for how long.
const LONG = 200000;
const PATIENCE_OF_LONG = 150;

/** The pane; `change` is told when what is played is another. */
export class SourcePane {
  constructor({ examples, file, change }) {
    this.examples = examples;
    this.onChange = change;
    this.source = new Source();
    this.shown = null;
    this.shownBelongs = false;
    this.editor = new Editor({ change: () => this.changed(), move: () => this.showPlace() });
    this.editor.area.addEventListener('keydown', (event) => this.press(event));
    this.help = new Help({ take: ({ from, to }, word) => this.takeOffer(from, to, word), go: (row) => this.goToRow(row) });
    this.form = new RowForm({ known: () => this.known(), write: (row, isSetup) => this.write(row, isSetup) });
    this.folded = element('p', { 'class': 'folded', 'hidden': true, 'data-name': 'folded' });
    this.parts = element('p', { 'class': 'parts', 'hidden': true, 'data-name': 'parts' });
    this.node = this.paneNode(file);
  }

  // The pane's elements.
  paneNode(file) {
    this.exampleChoice = choice('Example', [['', 'none'], ...this.examples.map(({ name }) => [name, name])], '', (name) => this.chooseExample(name));
    const turn = () => this.adder.setAttribute('aria-expanded', String(this.form.toggle()));
    this.adder = element('button', { 'type': 'button', 'aria-expanded': 'false', 'click': turn }, 'Add a row');
    return element('section', { 'class': 'source', 'aria-label': 'Script' },
      element('div', { class: 'bar' }, this.exampleChoice, element('label', { for: 'file', class: 'button' }, 'Open a file'), file,
        element('button', { type: 'button', click: () => this.save() }, 'Save the script'), this.adder),
      this.form.node, this.folded, this.parts, this.editor.node, this.help.node);
  }

  // Takes the example of a name.
  chooseExample(name) {
    const example = this.examples.find((one) => one.name === name);
    if (example !== undefined) this.takeExample(example);
  }

  /** Takes an example. */
  takeExample({ name, text }) {
    this.open({ name: `${name}.csv`, bytes: new TextEncoder().encode(text) });
    this.exampleChoice.querySelector('select').value = name;
  }

  /** Opens a file's bytes. */
  open({ name, bytes }) {
    this.source.take(name, bytes);
    this.exampleChoice.querySelector('select').value = '';
    this.drawSource();
    this.onChange();
  }

  /** Takes a text that a command answered in the place of the field's. */
  takeText(name, text) { this.open({ name, bytes: new TextEncoder().encode(text) }); }

  // The field's text was changed by a hand.
  changed() {
    if (this.source.setRows(this.editor.text)) this.drawSource();
    this.shownBelongs = false;
    this.drawPartWords();
    document.body.dataset.busy = '';
    clearTimeout(this.timer);
    this.timer = setTimeout(() => this.onChange(), this.source.rows.length > LONG ? PATIENCE_OF_LONG : 0);
  }

  // Draws the source: the field, and what stands before it or in its place.
  drawSource() {
    const { held, start, dumpRows } = this.source;
    this.shownBelongs = false;
    this.editor.setMarks(new Map());
    this.editor.area.disabled = held !== null;
    this.adder.disabled = held !== null;
    if (held !== null) this.form.hide();
    this.folded.hidden = held === null && start === '';
    this.folded.replaceChildren(...(held === null ? this.startNodes(start, dumpRows) : this.heldNodes(held)));
    this.drawPart();
  }

  // Draws the part of the rows that the field shows.
  drawPart() {
    const { rowsBefore, shownRows, isParted } = this.source;
    this.editor.before = rowsBefore;
    this.editor.setText(shownRows);
    this.parts.hidden = !isParted;
    this.drawPartWords();
    this.showPlace();
  }

  // Tells which rows the field shows, where it shows a part.
  drawPartWords() {
    const { rowsBefore, isParted, part: { from, to }, rows } = this.source;
    if (!isParted) return;
    const step = (text, place, isThere) => element('button', { type: 'button', disabled: !isThere, click: () => this.goToPart(place) }, text);
    this.parts.replaceChildren(`The field shows rows ${grouped(rowsBefore + 1)} to ${grouped(rowsBefore + this.editor.starts.length)}. `,
      step('First', 0, from > 0), ' ', step('Before', from - 1, from > 0), ' ',
      step('Behind', to, to < rows.length), ' ', step('Last', rows.length, to < rows.length));
  }

  // Shows the part around a place.
  goToPart(place) {
    this.source.showPart(place);
    this.drawPart();
  }

  // Goes to a row, in the part that has it.
  goToRow(row) {
    const place = this.source.placeOfRow(row);
    const { from, to } = this.source.part;
    if (place < 0) return;
    if (place < from || place >= to) this.goToPart(place);
    this.editor.goToRow(row);
  }

  /** Puts the caret behind a row, without taking the focus. */
  showRow(row) { this.editor.goToRow(row, false); }

  // What stands for a dump that the script begins with.
  startNodes(start, rowsBefore) {
    const leave = () => {
      this.source.start = '';
      this.drawSource();
      this.onChange();
    };
    return [`A dump of ${counted(rowsBefore, 'row')} (${grouped(start.length)} characters) stands before the field. `,
      element('button', { type: 'button', click: leave }, 'Leave it out')];
  }

  // What stands for a file that the field does not show.
  heldNodes({ why, bytes }) {
    return [element('strong', {}, this.source.name), ` is handed over as it is, ${grouped(bytes.length)} bytes; the field does not show it: ${why}.`];
  }

  // What may be named in a row.
  known() {
    const known = knownOf(this.source.rows, this.shown === null ? null : this.shown.exchange);
    known.laneOf = (signer) => laneOf(this.shown === null ? null : this.shown.script, signer);
    return known;
  }

  // Shows what stands at the caret.
  showPlace() {
    const { number, text, column } = this.editor.caret();
    const row = this.editor.rowOfLine(number);
    this.help.setPlace(hintAt(text, column, this.known()), row, text.split(','), this.shownBelongs ? this.shown : null);
  }

  // Takes a word that was offered, in the line of the caret.
  takeOffer(from, to, word) {
    const { from: line } = this.editor.caret();
    this.editor.put(line + from, line + to, word);
  }

  // Keys of the field.
  press(event) {
    if (event.key === ' ' && event.ctrlKey && this.help.choose()) event.preventDefault();
  }

  /** Writes a row: behind all others, or of the setup, before the first instruction. */
  write(row, isSetup = false) {
    const { held, rows } = this.source;
    if (held !== null) return;
    const found = isSetup ? /^(do|ix|swap),/m.exec(rows) : null;
    const isOpen = found === null && rows !== '' && !rows.endsWith('\n');
    this.putAt(found === null ? rows.length : found.index, `${isOpen ? '\n' : ''}${row}\n`);
    if (found === null) this.editor.showEnd();
  }

  // Puts a text at a place of the rows, in the part that has it.
  putAt(place, text) {
    const { from, to } = this.source.part;
    if (place < from || place > to) this.goToPart(place);
    this.editor.put(place - this.source.part.from, place - this.source.part.from, text);
  }

  /** Takes the report that belongs to the text that stands there: marks of rows, and what the rows were answered. */
  takeShown(shown) {
    this.shown = shown;
    this.shownBelongs = true;
    const marks = new Map();
    for (const journal of shown.report.markets.values()) {
      for (let at = 0; at < journal.count; at += 1) if (journal.refusals[at] > 0) marks.set(journal.rows[at], 'refused-row');
    }
    this.editor.setMarks(marks);
    this.form.refresh();
    this.showPlace();
  }

  /** Shows the row at fault, or none. */
  setFault(fault) {
    const isHere = fault !== null && this.source.held === null && fault.row > this.source.dumpRows;
    this.editor.setFault(isHere ? fault.row : null);
    this.help.setFault(fault === null ? null : { ...fault, canGo: isHere });
  }

  // Saves what is played as a file.
  save() { keepAsFile(this.source.bytes, this.source.name || 'script.csv'); }
}
