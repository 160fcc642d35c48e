// The small form that makes a row: its fields with what is offered, the row as it will stand, and the button that writes it.

import { element } from '../page/elements.js';
import { FORM_ROWS } from './row_forms.js';

// How many lists of offers were made: each has an id of its own.
let listsMade = 0;

/** The form; `known` gives what may be named, and `write` takes the row and whether it is of the setup. */
export class RowForm {
  constructor({ known, write }) {
    this.known = known;
    this.write = write;
    this.kind = Object.keys(FORM_ROWS)[0];
    this.touched = new Set();
    this.fields = element('div', { class: 'form-fields' });
    this.preview = element('output', { class: 'form-row', 'data-name': 'new row' });
    this.add = element('button', { type: 'submit' }, 'Write the row');
    this.node = element('form', { class: 'row-form', hidden: true, submit: (event) => this.submit(event), input: (event) => this.heard(event) },
      element('div', { class: 'filters' }, this.kindChoice(), this.add), this.fields, this.preview);
  }

  // The choice of what the row is.
  kindChoice() {
    const change = () => {
      this.kind = select.value;
      this.touched.clear();
      this.draw();
    };
    const select = element('select', { change }, Object.keys(FORM_ROWS).map((kind) => element('option', { value: kind }, kind)));
    return element('label', { class: 'choice' }, element('span', {}, 'Add'), select);
  }

  /** Shows or hides the form; tells whether it is shown. */
  toggle() {
    this.node.hidden = !this.node.hidden;
    if (!this.node.hidden) this.draw();
    return !this.node.hidden;
  }

  /** Hides the form. */
  hide() { this.node.hidden = true; }

  /** Takes what may be named anew, where the form is shown and nobody is typing in it. */
  refresh() {
    if (!this.node.hidden && !this.node.contains(document.activeElement)) this.draw();
  }

  // What stands at first in each field that was not touched, by the fields before it.
  fill(values) {
    const known = this.known();
    const all = {};
    for (const { name, start } of FORM_ROWS[this.kind].fields) all[name] = this.touched.has(name) ? values[name] : start(known, { ...values, ...all });
    return all;
  }

  // Draws the fields of the kind.
  draw() {
    const known = this.known();
    const values = this.fill(this.values());
    this.fields.replaceChildren(...FORM_ROWS[this.kind].fields.map((field) => this.fieldNode(field, known, values)));
    this.show(values);
  }

  // A field with its label.
  fieldNode({ name, label, offers, isChoice }, known, values) {
    const words = offers(known, values);
    if (isChoice) {
      const options = words.map((word) => element('option', { value: word, selected: word === values[name] }, word));
      return element('label', {}, element('span', {}, label), element('select', { name }, options));
    }
    listsMade += 1;
    const list = `offers-${listsMade}`;
    const input = element('input', { name, value: values[name], list: words.length > 0 ? list : null, autocomplete: 'off', spellcheck: 'false' });
    return element('label', {}, element('span', {}, label), input, element('datalist', { id: list }, words.map((word) => element('option', { value: word }))));
  }

  // What stands in the fields.
  values() {
    return Object.fromEntries([...this.fields.querySelectorAll('[name]')].map((node) => [node.name, node.value.trim()]));
  }

  // A field was changed: those that hang on it follow, but for those that were touched.
  heard({ target }) {
    if (!target.name) return;
    this.touched.add(target.name);
    const known = this.known();
    const values = this.fill(this.values());
    for (const node of this.fields.querySelectorAll('[name]')) {
      const { offers, isChoice } = FORM_ROWS[this.kind].fields.find(({ name }) => name === node.name);
      if (node === target) continue;
      if (isChoice && !this.touched.has(node.name)) node.replaceChildren(...offers(known, values).map((word) => element('option', { value: word }, word)));
      node.value = values[node.name];
    }
    this.show(values);
  }

  // The row of the values; null where none can be made of them.
  row(values) {
    try {
      return FORM_ROWS[this.kind].row(values);
    } catch {
      return null;
    }
  }

  // Shows the row as it will stand.
  show(values) {
    const row = this.row(values);
    this.preview.textContent = row === null ? 'It cannot be written yet: an order, a second market, or a number, is wanting.' : row;
    this.add.disabled = row === null;
  }

  // Writes the row.
  submit(event) {
    event.preventDefault();
    const row = this.row(this.values());
    if (row === null) return;
    this.write(row, FORM_ROWS[this.kind].isSetup === true);
    this.touched.clear();
  }
}
