// The front of a long script, kept while rows behind it change: what its rows left, as a dump, and their journals. A key then replays the
// rows behind it alone, on that dump, and the report of all rows is put together here. That steps one after the other leave what all rows
// leave together is tested, and no clause says it.

import { recordStarts } from '../page/script.js';
import { MOST_BYTES } from './source.js';

// From how many characters on the front of a script is kept: a shorter one is replayed at once. A dump that is this many times as long as
// the front costs more than the front's rows.
const SHORTEST = 20000;
const LONGEST_DUMP = 8;
// A script has so many instruction rows at most.
const MOST_ROWS = 100000;
// How many fronts are kept, each longer than the one before it.
const MOST_FRONTS = 3;

function textOf(bytes) { return new TextDecoder('utf-8', { ignoreBOM: true }).decode(bytes); }

function bytesOf(text) { return new TextEncoder().encode(text); }

// Whether each line of a text is a row by itself, with nothing in it that a reader of rows takes otherwise.
function isPlain(text) { return !/[^\n -~]|"/.test(text); }

/** Where the first line stands in which two texts differ. */
export function changedLine(one, other) {
  let low = 0;
  let high = Math.min(one.length, other.length);
  while (low < high) {
    const middle = (low + high + 1) >> 1;
    if (one.slice(low, middle) === other.slice(low, middle)) low = middle;
    else high = middle - 1;
  }
  return one.lastIndexOf('\n', low - 1) + 1;
}

// The journals of a report before its dump: of each, by its head's front, how many lines it has, and these; and where the dump begins.
function journalsOf(report) {
  const journals = new Map();
  let at = report.indexOf('\n') + 1;
  while (!report.startsWith('dump\n', at)) {
    const end = report.indexOf('\n', at);
    const [kind, address, count] = report.slice(at, end).split(' ');
    let last = end;
    for (let line = 0; line < Number(count); line += 1) last = report.indexOf('\n', last + 1);
    journals.set(`${kind} ${address}`, { count: Number(count), lines: report.slice(end + 1, last + 1) });
    at = last + 1;
  }
  return { rows: Number(report.slice(7, report.indexOf('\n'))), journals, dumpAt: at };
}

// Lines of a journal, with so much more in each row's number.
function renumbered(kind, lines, more) {
  if (kind === 'market') return lines.replace(/^(entry [0-9]+ )([0-9]+)/gm, (_, front, row) => front + (Number(row) + more));
  return lines.replace(/^(move [^ ]+ [0-9]+ )([0-9]+)/gm, (_, front, row) => front + (Number(row) + more));
}

// The rows that stand between a front's dump and the rows behind it: a dump keeps neither program nor clock.
function rowsBetween(front) {
  const program = /^program,(serum|openbook)$/m.exec(front);
  const at = front.lastIndexOf('\nclock,');
  const clock = at < 0 ? '' : front.slice(at + 1, front.indexOf('\n', at + 1) + 1);
  return `program,${program === null ? 'serum' : program[1]}\n${clock}`;
}

// How many lines a text has.
function linesIn(text) {
  let count = 0;
  for (let at = text.indexOf('\n'); at >= 0; at = text.indexOf('\n', at + 1)) count += 1;
  return count;
}

/** A script's front that was replayed: its text, and its report. */
class Front {
  constructor(text, report) {
    const { rows, journals, dumpAt } = journalsOf(report);
    this.text = text;
    this.rows = rows;
    this.journals = journals;
    this.begin = report.slice(dumpAt, -'end\n'.length) + rowsBetween(text);
    // How much less a row's number is in a replay that begins with the dump.
    this.more = recordStarts(text).length - linesIn(this.begin);
  }

  /** What is handed over for a script that begins with it. */
  scriptFor(text) { return this.begin + text.slice(this.text.length); }

  /** The report of the whole, of that of the rows behind it. */
  joined(report) {
    const { rows, journals, dumpAt } = journalsOf(report);
    const pieces = [`report ${this.rows + rows}\n`];
    for (const [head, { count, lines }] of journals) {
      const before = this.journals.get(head);
      pieces.push(`${head} ${before.count + count}\n`, before.lines, renumbered(head.split(' ')[0], lines, this.more));
    }
    return pieces.join('') + report.slice(dumpAt);
  }

  /** An answer to the rows behind it as one to the whole; null where only the whole tells. */
  wholeOf(answer) {
    if (answer.status === 0) {
      const text = this.joined(textOf(answer.text));
      return { ...answer, text: bytesOf(text), isJoined: true };
    }
    const refused = answer.status === 2 ? /^(script refused row )([0-9]+)(:[^]*)$/.exec(textOf(answer.text)) : null;
    return refused === null ? null : { ...answer, text: bytesOf(`${refused[1]}${Number(refused[2]) + this.more}${refused[3]}`), isJoined: true };
  }
}

/** Keeps fronts of the script that is played. */
export class Kept {
  constructor(shortest = SHORTEST, longestDump = LONGEST_DUMP) {
    Object.assign(this, { shortest, longestDump });
    this.fronts = [];
    // The script that was answered last, and where the row stands that was changed in it; 0 where it was not answered in parts.
    this.last = '';
    this.cut = 0;
    // How long the last dump was that a front left, and whether one is made.
    this.dumpLength = 0;
    this.isPreparing = false;
  }

  // The longest front that a script begins with; those that it does not begin with are forgotten.
  frontOf(text) {
    while (this.fronts.length > 0 && !text.startsWith(this.fronts[this.fronts.length - 1].text)) this.fronts.pop();
    return this.fronts.length === 0 ? null : this.fronts[this.fronts.length - 1];
  }

  // Whether a script can be answered in two parts at all.
  isParted(text) { return text !== null && text.length >= this.shortest && linesIn(text) <= MOST_ROWS && isPlain(text); }

  /** Answers `replay` of a script: `call` calls it with bytes. */
  async answer(call, text, bytes) {
    if (!this.isParted(text)) {
      [this.last, this.cut, this.dumpLength] = ['', 0, 0];
      return call(bytes);
    }
    this.cut = this.last === '' ? 0 : changedLine(this.last, text);
    this.last = text;
    const front = this.frontOf(text);
    const script = front === null ? null : front.scriptFor(text);
    if (script === null || script.length > MOST_BYTES) return call(bytes);
    const answer = await call(bytesOf(script));
    if (answer.text === undefined) return answer;
    const whole = front.wholeOf(answer);
    return whole === null ? call(bytes) : whole;
  }

  // Where the front should end that the next change wants; 0 where what is kept serves as well.
  get wantedCut() {
    const { last, cut, shortest, longestDump } = this;
    const front = this.frontOf(last);
    const saved = front === null ? cut : cut - front.text.length;
    const isWanted = saved >= shortest && 2 * saved >= last.length - cut && this.dumpLength <= longestDump * cut;
    return isWanted && !this.isPreparing ? cut : 0;
  }

  /** Replays the front up to the row that was changed last, so that the next change there is answered soon. Stopped, it kept nothing. */
  async prepare(call) {
    const cut = this.wantedCut;
    if (cut === 0) return;
    const text = this.last.slice(0, cut);
    const front = this.frontOf(text);
    this.isPreparing = true;
    const answer = await call(bytesOf(front === null ? text : front.scriptFor(text)));
    this.isPreparing = false;
    if (answer.status !== 0 || !this.last.startsWith(text)) return;
    const report = textOf(answer.text);
    this.keep(new Front(text, front === null ? report : front.joined(report)));
  }

  // Keeps a front that is worth it, in the place of those that are longer.
  keep(made) {
    this.dumpLength = made.begin.length;
    if (made.rows === 0 || this.dumpLength > this.longestDump * made.text.length) return;
    this.fronts = [...this.fronts.filter(({ text }) => text.length < made.text.length), made].slice(-MOST_FRONTS);
  }
}
