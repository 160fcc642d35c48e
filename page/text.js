// A text as numbered lines, the words that stand in them, and faults that name a line.

/** What is wrong with a text, at a line of it; lines count from 1. */
export class LineFault extends Error {
  constructor(line, message) {
    super(message);
    this.line = line;
  }
}

/** What ends the reading of a text that somebody stopped. */
export class Stopped extends Error {}

/** How many lines or rows a text may have; what a command reads or writes has fewer. */
export const MOST_LINES_OF_A_TEXT = 10000000;

/** Rising places of a text, in room that grows. */
export class Places {
  constructor() {
    this.room = new Uint32Array(1024);
    this.count = 0;
  }

  /** Adds a place. */
  add(place) {
    if (this.count === this.room.length) {
      const more = new Uint32Array(2 * this.count);
      more.set(this.room);
      this.room = more;
    }
    this.room[this.count] = place;
    this.count += 1;
  }

  /** All places. */
  get all() { return this.room.subarray(0, this.count); }
}

// How many signs of a text, or how many lines, are looked at before the time is.
const TEXT_AT_ONCE = 500000;
const LINES_AT_ONCE = 20000;

/** The lines of a text, found in slices, so that the page can act meanwhile. */
export async function linesOfText(text, tell) {
  const starts = new Places();
  starts.add(0);
  let next = TEXT_AT_ONCE;
  for (let at = text.indexOf('\n'); at >= 0; at = text.indexOf('\n', at + 1)) {
    starts.add(at + 1);
    if (at < next && starts.count % LINES_AT_ONCE !== 0) continue;
    next = at + TEXT_AT_ONCE;
    if (starts.count > MOST_LINES_OF_A_TEXT) throw new LineFault(starts.count, 'No text of a command has so many lines.');
    await breathe(tell, starts.count, at / text.length / 2);
  }
  return new Lines(text, starts.all);
}

// Where the lines of a text begin.
function startsOf(text) {
  const starts = new Places();
  starts.add(0);
  for (let at = text.indexOf('\n'); at >= 0; at = text.indexOf('\n', at + 1)) starts.add(at + 1);
  return starts.all;
}

/** The lines of a text, cut out when they are asked for. A line ends with a line feed, or with a carriage return and a line feed. */
export class Lines {
  constructor(text, starts = startsOf(text)) {
    this.text = text;
    this.starts = starts;
    this.isEnded = text.endsWith('\n');
    this.count = text === '' ? 0 : starts.length - (this.isEnded ? 1 : 0);
  }

  /** The line of a number from 1, without its end; empty behind the last line. */
  at(number) {
    if (number > this.count) return '';
    const end = number < this.starts.length ? this.starts[number] - 1 : this.text.length;
    const line = this.text.slice(this.starts[number - 1], end);
    return line.endsWith('\r') ? line.slice(0, -1) : line;
  }

  /** The text from a line on up to another one, by their numbers. */
  between(from, to) { return this.text.slice(this.starts[from - 1], to <= this.starts.length ? this.starts[to - 1] : this.text.length); }

  /** The number of the line that holds a place of the text. */
  numberOf(place) {
    let low = 0;
    let high = this.starts.length;
    while (high - low > 1) {
      const middle = (low + high) >> 1;
      if (this.starts[middle] <= place) low = middle;
      else high = middle;
    }
    return low + 1;
  }
}

/** Whether a word is a decimal number without sign and without zeros in front. */
export function isNumber(word) {
  return word !== undefined && /^(0|[1-9][0-9]{0,38})$/.test(word);
}

/** Whether a word is a number that may stand below zero, as times may. */
export function isTime(word) {
  return word !== undefined && /^(0|-?[1-9][0-9]{0,18})$/.test(word);
}

/** The number of a word: a plain one where that is exact, else one without bounds. */
export function exactNumber(word) {
  const number = Number(word);
  return Number.isSafeInteger(number) ? number : BigInt(word);
}

// Longer than any line of words that a command writes.
const LONGEST_LINE_OF_WORDS = 4000;

/** The words of a line; none where it is longer than any that a command writes. */
export function wordsOfLine(line) { return line.length > LONGEST_LINE_OF_WORDS ? [] : line.split(' '); }

/** Whether a word is an address: a label, or `0x` and 64 hexadecimal digits. */
export function isAddress(word) {
  return word !== undefined && /^([a-z0-9_]{1,24}|0x[0-9a-f]{64})$/.test(word);
}

/** The front of a line, as it is shown where the line is at fault. */
export function frontOf(line) {
  if (line === '') return 'nothing';
  return `“${line.length > 60 ? `${line.slice(0, 60)}…` : line}”`;
}

// For how long the page may not act, in milliseconds, and when it acted last.
const AT_ONCE = 40;
let acted = 0;

/** Lets the page act, so that long work goes in slices. */
export function pause() {
  return new Promise((resume) => {
    setTimeout(() => {
      acted = performance.now();
      resume();
    });
  });
}

/** Where the page has not acted for a while, tells how far long work is, and lets it act. */
export async function breathe(tell, ...told) {
  if (performance.now() - acted < AT_ONCE) return;
  tell(...told);
  await pause();
}
