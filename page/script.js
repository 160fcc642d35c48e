// A script: its rows as records of CSV, numbered as the program numbers them, and of each instruction row what filters go by.

import { readDump } from './dump.js';
import { nameOfData } from './instructions.js';
import { breathe, LineFault, linesOfText, MOST_LINES_OF_A_TEXT, Places } from './text.js';

// How many signs of a text are looked at before the time is, and as how many a row counts besides its own.
const SIGNS_AT_ONCE = 200000;
const SIGNS_OF_A_ROW = 100;
const INSTRUCTIONS = ['ix', 'do', 'swap'];
const SETUP = ['program', 'clock', 'mint', 'srm', 'msrm', 'wallet', 'market', 'orders', 'dump', 'enddump'];

/** Whether a text begins as a script does. */
export function isScript(text) {
  const first = /^[\r\n]*"?([a-z]+)"?[,\r\n]/.exec(text);
  return first !== null && [...INSTRUCTIONS, ...SETUP].includes(first[1]);
}

// More fields, and more quotes in one, than any row has; what stands behind is not looked at.
const MOST_FIELDS = 100;
const MOST_QUOTES = 1000;
// How many signs of a field are shown.
const MOST_OF_A_FIELD = 2000;
const [LINE_FEED, RETURN, COMMA, QUOTE] = ['\n', '\r', ',', '"'].map((sign) => sign.charCodeAt(0));
// Where in a record a sign stands.
const [IN_FRONT, IN_FIELD, IN_QUOTES] = [0, 1, 2];

// The place behind a field without quotes.
function endOfField(text, from, end) {
  const stop = /[,\r\n]/g;
  stop.lastIndex = from;
  const found = stop.exec(text);
  return found === null || found.index > end ? end : found.index;
}

// The field from a place on, and the place behind it.
function fieldAt(text, from, end) {
  let next = endOfField(text, from, end);
  if (text.charCodeAt(from) !== QUOTE || from >= end) return { field: text.slice(from, next), next };
  let field = '';
  let at = from + 1;
  for (let quotes = 0; quotes < MOST_QUOTES; quotes += 1) {
    const close = text.indexOf('"', at);
    if (close < 0 || close >= end) return { field: field + text.slice(at, end), next: end };
    field += text.slice(at, close);
    if (text.charCodeAt(close + 1) !== QUOTE || close + 1 >= end) {
      next = endOfField(text, close + 1, end);
      return { field: field + text.slice(close + 1, next), next };
    }
    field += '"';
    at = close + 2;
  }
  return { field, next: end };
}

/** The fields of the record that begins at a place of a text and ends at another. */
export function fieldsAt(text, start, end = text.length) {
  const fields = [];
  for (let at = start; fields.length < MOST_FIELDS;) {
    const { field, next } = fieldAt(text, at, end);
    fields.push(field);
    if (next >= end || text.charCodeAt(next) !== COMMA) break;
    at = next + 1;
  }
  return fields;
}

// The records of a text as they are found, without lines that are empty.
class Records {
  constructor(text) {
    Object.assign(this, { text, at: 0, from: 0, state: IN_FRONT, starts: new Places(), ends: new Places() });
  }

  // Ends the record at a place.
  end(place) {
    if (place > this.from) {
      this.starts.add(this.from);
      this.ends.add(place);
    }
    this.from = place + 1;
  }

  /** Goes on for some signs; answers whether the text is at its end. */
  step(count) {
    const { text } = this;
    const to = Math.min(text.length, this.at + count);
    let { at, state } = this;
    for (; at < to; at += 1) {
      const sign = text.charCodeAt(at);
      if (state === IN_QUOTES) {
        if (sign !== QUOTE) continue;
        if (text.charCodeAt(at + 1) === QUOTE) at += 1;
        else state = IN_FIELD;
      } else if (sign === LINE_FEED || sign === RETURN) {
        this.end(at);
        state = IN_FRONT;
      } else if (sign === COMMA) state = IN_FRONT;
      else state = sign === QUOTE && state === IN_FRONT ? IN_QUOTES : IN_FIELD;
    }
    Object.assign(this, { at, state });
    if (at < text.length) return false;
    this.end(text.length);
    return true;
  }
}

/** Where the records of a text begin, without lines that are empty. */
export function recordStarts(text) {
  const records = new Records(text);
  records.step(text.length);
  return records.starts.all;
}

// The records of a text, found in slices.
async function recordsOfText(text, tell) {
  const records = new Records(text);
  while (!records.step(SIGNS_AT_ONCE)) {
    if (records.starts.count > MOST_LINES_OF_A_TEXT) throw new LineFault(records.starts.count, 'No script has so many rows.');
    await breathe(tell, records.starts.count, records.at / text.length / 2);
  }
  return records;
}

// The rows of a script, cut out when they are asked for. Rows count from 1.
class Script {
  constructor(records) {
    this.text = records.text;
    this.isQuoted = this.text.includes('"');
    this.starts = records.starts.all;
    this.ends = records.ends.all;
    this.count = this.starts.length;
    // Of each row, from 1: its kind of instruction row, and the places of market, of a swap's other market, of signer, first account and
    // instruction's name in `addresses`; 0 is none.
    this.kinds = new Uint8Array(this.count + 1);
    this.names = new Uint32Array(this.count + 1);
    this.markets = new Uint32Array(this.count + 1);
    this.others = new Uint32Array(this.count + 1);
    this.signers = new Uint32Array(this.count + 1);
    this.accounts = new Uint32Array(this.count + 1);
    this.addresses = [null];
    this.placed = new Map();
    this.instructions = 0;
    this.swaps = 0;
    this.program = 'serum';
    this.clocks = [];
    this.dumpEnd = 0;
    this.start = null;
  }

  /** The fields of a row, each whole; none where there is no such row. */
  wholeFieldsOf(row) {
    if (!(row >= 1 && row <= this.count)) return [];
    return this.isQuoted ? fieldsAt(this.text, this.starts[row - 1], this.ends[row - 1]) : this.lineOf(row).split(',', MOST_FIELDS);
  }

  /** The fields of a row, as far as they are shown. */
  fieldsOf(row) {
    return this.wholeFieldsOf(row).map((field) => (field.length > MOST_OF_A_FIELD ? `${field.slice(0, MOST_OF_A_FIELD)}…` : field));
  }

  /** The text of a row. */
  lineOf(row) { return this.text.slice(this.starts[row - 1], this.ends[row - 1]); }

  // The place of an address in `addresses`.
  placeOf(address) {
    let place = this.placed.get(address);
    if (place === undefined) {
      place = this.addresses.push(address) - 1;
      this.placed.set(address, place);
    }
    return place;
  }

  // Notes what a row is.
  note(row) {
    const fields = this.fieldsOf(row);
    const kind = INSTRUCTIONS.indexOf(fields[0]) + 1;
    this.kinds[row] = kind;
    if (fields[0] === 'program') [, this.program] = fields;
    if (fields[0] === 'clock') this.clocks.push([row, fields[1]]);
    if (fields[0] === 'enddump' && this.dumpEnd === 0) this.dumpEnd = row;
    if (kind === 0) return;
    this.instructions += 1;
    if (fields[0] === 'swap') this.noteSwap(row, fields);
    else this.noteInstruction(row, fields);
  }

  // Notes a swap.
  noteSwap(row, [, , signer, first, , , , second]) {
    this.swaps += 1;
    this.names[row] = this.placeOf('swap');
    this.signers[row] = this.placeOf(signer);
    this.markets[row] = this.placeOf(first);
    this.others[row] = this.placeOf(second);
  }

  // Notes a row of one instruction.
  noteInstruction(row, fields) {
    const named = (fields[4] || '-').split(' ')[0];
    const words = fields[9] || '';
    this.names[row] = this.placeOf(fields[0] === 'do' ? words.split(' ')[0] : nameOfData(words));
    this.markets[row] = this.placeOf(fields[2]);
    this.signers[row] = this.placeOf(fields[3]);
    if (named !== '-') this.accounts[row] = this.placeOf(named);
  }

  /** Whether a row is an instruction row on a market, or a swap with a leg there. */
  isOn(row, market) {
    const place = this.placed.get(market) || -1;
    return this.kinds[row] > 0 && (this.markets[row] === place || this.others[row] === place);
  }

  /** The signer of a row; null where it is no instruction row. */
  signerOf(row) { return this.addresses[this.signers[row] || 0]; }

  /** The first account that a row names; null where it names none. */
  accountOf(row) { return this.addresses[this.accounts[row] || 0]; }

  /** What is asked for and who signs, each once. */
  used() {
    const sorted = (places) => [...new Set(places)].filter((place) => place !== 0).map((place) => this.addresses[place]).sort();
    if (this.usedWords === undefined) this.usedWords = { names: sorted(this.names), signers: sorted(this.signers) };
    return this.usedWords;
  }

  /** The clock at a row. */
  clockAt(row) {
    const before = this.clocks.filter(([at]) => at < row);
    return before.length === 0 ? '0' : before[before.length - 1][1];
  }
}

/** Reads a text as a script, in slices. Whether its rows are in order is the program's to say. */
export async function readScript(text, tell) {
  if (text.length > 67108864) throw new LineFault(1, 'A script has at most 67,108,864 bytes.');
  const script = new Script(await recordsOfText(text, tell));
  let work = 0;
  for (let row = 1; row <= script.count; row += 1) {
    script.note(row);
    work += SIGNS_OF_A_ROW + script.ends[row - 1] - script.starts[row - 1];
    if (work >= SIGNS_AT_ONCE) {
      work = 0;
      await breathe(tell, row, (1 + row / script.count) / 2);
    }
  }
  if (script.dumpEnd > 0) script.start = (await readDump(await linesOfText(dumpText(script), tell), 1, tell)).exchange;
  return script;
}

/** Why a script is not the one that a report is of; null where it may be. */
export function mismatch(script, report) {
  if (script.instructions !== report.rows) {
    return `it has ${script.instructions} instruction rows, and the report tells of ${report.rows}`;
  }
  if (script.swaps !== report.swaps.size) return `it has ${script.swaps} swaps, and the report tells of ${report.swaps.size}`;
  for (const [address, journal] of report.markets) {
    for (let at = 0; at < journal.count; at += 1) {
      const row = journal.rows[at];
      if (!script.isOn(row, address)) return `its row ${row} is none on ${address}, where the report has an entry of that row`;
    }
  }
  return null;
}

// The dump that a script begins with.
function dumpText(script) {
  const rows = Array.from({ length: script.dumpEnd }, (_, at) => script.wholeFieldsOf(at + 1).join(','));
  return `${rows.join('\n')}\n`;
}
