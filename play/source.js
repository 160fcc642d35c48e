// What is played: a dump in front, kept folded, and the rows behind it, of which the field shows a part where they are many; or a file that
// the field does not show.

import { fieldsAt, recordStarts } from '../page/script.js';
import { grouped } from '../page/units.js';

/** The most bytes that a command reads, as the program has it. */
export const MOST_BYTES = 67108864;
// What the field can show and change, and what the page reads beside a report. A script has 100,000 instructions at most.
const MOST_IN_FIELD = 16777216;
const MOST_LINES = 200000;
const LONGEST_LINE = 20000;
// How many lines stand in the field at once, so that no key is waited for.
const PART_LINES = 1500;

// The dump that a text begins with, and what stands behind it.
function splitDump(text) {
  const end = /^dump\r?\n/.test(text) ? /\nenddump\r?(\n|$)/.exec(text) : null;
  if (end === null) return ['', text];
  const place = end.index + end[0].length;
  return [text.slice(0, place), text.slice(place)];
}

// The text that is played of a file: of a report the dump in it, so that rows can go on from there.
function playedOf(text) {
  const begin = /^report [0-9]+\r?\n/.test(text) ? text.indexOf('\ndump\n') : -1;
  const end = begin < 0 ? -1 : text.indexOf('\nenddump\n', begin);
  return end < 0 ? text : text.slice(begin + 1, end + 9);
}

// Why the field does not show a text; null where it does.
function whyNotShown(text) {
  const most = (count, what) => `${grouped(count)} characters, and the field takes ${grouped(what)} at most`;
  if (text.length > MOST_IN_FIELD) return `it has ${most(text.length, MOST_IN_FIELD)}`;
  let lines = 0;
  for (let from = 0; from <= text.length && lines <= MOST_LINES; lines += 1) {
    let end = text.indexOf('\n', from);
    if (end < 0) end = text.length;
    if (end - from > LONGEST_LINE) return `its line ${grouped(lines + 1)} has ${most(end - from, LONGEST_LINE)}`;
    from = end + 1;
  }
  return lines > MOST_LINES ? `it has more than ${grouped(MOST_LINES)} lines` : null;
}

// Bytes as text; null where they are none.
function textOfBytes(bytes) {
  try {
    return new TextDecoder('utf-8', { fatal: true, ignoreBOM: true }).decode(bytes);
  } catch {
    return null;
  }
}

/** Where the lines of a text begin. */
export function lineStarts(text) {
  const starts = [0];
  for (let at = text.indexOf('\n'); at >= 0; at = text.indexOf('\n', at + 1)) starts.push(at + 1);
  return starts;
}

/** The place of the last number that is not above a value, in rising numbers; -1 where there is none. */
export function lastUpTo(numbers, value) {
  let low = 0;
  let high = numbers.length;
  while (low < high) {
    const middle = (low + high) >> 1;
    if (numbers[middle] <= value) low = middle + 1;
    else high = middle;
  }
  return low - 1;
}

// The part of some rows around a place, and how many rows stand before it.
function partAround(rows, place) {
  const starts = lineStarts(rows);
  if (starts.length <= 2 * PART_LINES) return { from: 0, to: rows.length, rowsBefore: 0 };
  const first = lastUpTo(starts, place) - (lastUpTo(starts, place) % PART_LINES);
  const from = starts[first];
  const to = first + PART_LINES < starts.length ? starts[first + PART_LINES] : rows.length;
  return { from, to, rowsBefore: recordStarts(rows.slice(0, from)).length };
}

/** A file, or what stands in the field. */
export class Source {
  constructor() {
    this.name = '';
    this.empty();
  }

  // Has nothing.
  empty() {
    [this.start, this.rows, this.held] = ['', '', null];
    this.part = partAround('', 0);
  }

  /** Takes a file's bytes: into the field where that can show them, else as they are. */
  take(name, bytes) {
    this.name = name;
    this.empty();
    const text = bytes.length > MOST_BYTES ? null : textOfBytes(bytes);
    const most = `it has ${grouped(bytes.length)} bytes, and a command reads ${grouped(MOST_BYTES)} at most`;
    if (bytes.length > MOST_BYTES) this.held = { bytes, text, why: most };
    else if (text === null) this.held = { bytes, text, why: 'its bytes are no text' };
    else this.takeText(playedOf(text), bytes);
  }

  // Takes a text with its bytes. A text area has line feeds alone at the ends of its lines, which mean the same.
  takeText(text, bytes) {
    const [start, rows] = splitDump(text);
    const why = whyNotShown(rows);
    if (why !== null) this.held = { bytes, text: null, why };
    else {
      [this.start, this.rows] = [start, rows.replace(/\r\n?/g, '\n')];
      this.part = partAround(this.rows, 0);
    }
  }

  /** What the field shows. */
  get shownRows() { return this.rows.slice(this.part.from, this.part.to); }

  /** Whether the field shows a part alone. */
  get isParted() { return this.part.from > 0 || this.part.to < this.rows.length; }

  /** Lets the field show the part around a place of the rows. */
  showPart(place) { this.part = partAround(this.rows, place); }

  /** The place of a row by its number; -1 where the rows have none such. */
  placeOfRow(row) {
    const start = recordStarts(this.rows)[row - this.dumpRows - 1];
    return start === undefined ? -1 : start;
  }

  /** The fields of a row by its number; none where the rows have none such. */
  fieldsOfRow(row) {
    const place = this.placeOfRow(row);
    return place < 0 ? [] : fieldsAt(this.rows, place);
  }

  /** Takes the field's text; a dump that it begins with is folded. Tells whether the field has to be drawn anew. */
  setRows(shown) {
    const { from, to } = this.part;
    this.rows = this.rows.slice(0, from) + shown + this.rows.slice(to);
    this.part.to = from + shown.length;
    const [start, rest] = this.start === '' && from === 0 ? splitDump(this.rows) : ['', this.rows];
    const isLong = shown.length > 6 * PART_LINES && lineStarts(shown).length > 2 * PART_LINES;
    if (start === '' && !isLong) return false;
    if (start !== '') [this.start, this.rows] = [start, rest];
    this.showPart(isLong ? this.part.to : 0);
    return true;
  }

  // How many rows the dump has.
  get dumpRows() { return this.start === '' ? 0 : lineStarts(this.start).length - 1; }

  /** How many rows stand before the field's. */
  get rowsBefore() { return this.dumpRows + this.part.rowsBefore; }

  /** The whole text; null where there is none, or it is too long to be read beside a report. */
  get text() { return this.held === null ? this.start + this.rows : this.held.text; }

  /** The bytes that a command is handed. */
  get bytes() { return this.held === null ? new TextEncoder().encode(this.start + this.rows) : this.held.bytes; }

  /** Why no command is handed it; null where one is. */
  get whyNot() { return this.held !== null && this.held.bytes.length > MOST_BYTES ? this.held.why : null; }

  /** Whether it is to be read as a dump: it begins as one, and nothing stands behind its end. */
  get isDump() {
    if (!this.startsAsDump || this.text === null) return this.startsAsDump;
    const [start, rest] = splitDump(this.text);
    return start === '' || rest.trim() === '';
  }

  // Whether it begins as a dump does.
  get startsAsDump() {
    const text = this.text === null ? new TextDecoder().decode(this.bytes.slice(0, 8)) : this.text.slice(0, 8);
    return /^dump\r?(\n|$)/.test(text);
  }
}
