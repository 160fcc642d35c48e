// A report: the journals of markets and wallets, then a dump. Entries stay lines of the text, and are read again when they are shown.

import { readDump } from './dump.js';
import { checkMoves } from './moves.js';
import { DONE, HELD, readEntry, readMove } from './replies.js';
import { pairLegs } from './swaps.js';
import { breathe, exactNumber, frontOf, isAddress, isNumber, LineFault, linesOfText, wordsOfLine } from './text.js';

// After how many lines the time is looked at.
const SLICE = 200;

/** Lines of a report behind the head of a journal, and how many of them are those of the report before. */
class JournalLines {
  constructor(lines, first, count) {
    Object.assign(this, { lines, first, count, same: 0 });
  }

  // The text of the lines from a number to another, from 0.
  between(from, to) { return this.lines.between(this.first + from, this.first + to); }

  /** Takes what was noted of lines that stand at the front of a journal of another report too. */
  takeFront(old) {
    let [low, high] = [0, Math.min(this.count, old.count)];
    while (low < high) {
      const middle = (low + high + 1) >> 1;
      if (this.between(low, middle) === old.between(low, middle)) low = middle;
      else high = middle - 1;
    }
    this.same = low;
    this.takeNotes(old, low);
  }
}

/** The journal of a market: where its entries stand, and what filters go by. `named` has the first line that names each wallet. */
class MarketJournal extends JournalLines {
  constructor(lines, named, ...place) {
    super(lines, ...place);
    const { count } = this;
    this.named = named;
    // The rows' numbers, each as it stands.
    this.rows = [];
    this.lanes = new Uint8Array(count);
    // How many wallets each entry names.
    this.moves = new Uint8Array(count);
    this.kinds = new Uint8Array(count);
    this.refusals = new Uint8Array(count);
    this.ofOrder = new Map();
    // The first entry that names each wallet.
    this.names = new Map();
    // The numbers of the entries in which something was filled, what was, and what they come to.
    this.trades = [];
    this.fills = [];
    this.volume = { lots: 0n, pc: 0n, fees: 0n };
    this.refused = 0;
  }

  /** Notes what the entry of a number, from 0, says. */
  note(at, entry) {
    this.rows[at] = entry.row;
    this.lanes[at] = entry.lane;
    this.moves[at] = entry.moves.length;
    this.kinds[at] = entry.kind;
    this.refusals[at] = entry.refusal;
    if (entry.refusal > 0) this.refused += 1;
    if (entry.values.id !== undefined) this.ofOrder.set(entry.values.id, at);
    if (entry.values.lots > 0n) this.noteFill(at, entry.values);
    for (const { wallet } of entry.moves) if (!this.names.has(wallet)) this.noteName(wallet, at);
  }

  // Notes what was filled.
  noteFill(at, { lots, pc, fee }) {
    this.trades.push(at);
    this.fills.push({ lots, pc, fee });
    this.volume.lots += lots;
    this.volume.pc += pc;
    this.volume.fees += fee;
  }

  // Notes the first entry that names a wallet.
  noteName(wallet, at) {
    this.names.set(wallet, at);
    if (!this.named.has(wallet)) this.named.set(wallet, this.first + at);
  }

  /** Notes what another journal noted of its first entries. What became of a swap's legs is found anew. */
  takeNotes(old, same) {
    this.rows = old.rows.slice(0, same);
    for (const name of ['lanes', 'moves', 'kinds', 'refusals']) this[name].set(old[name].subarray(0, same));
    this.kinds.forEach((kind, at) => { if (kind === HELD) this.kinds[at] = DONE; });
    this.refused = this.refusals.reduce((sum, number) => sum + Number(number > 0), 0);
    for (const [id, at] of old.ofOrder) if (at < same) this.ofOrder.set(id, at);
    for (let trade = 0; old.trades[trade] < same; trade += 1) this.noteFill(old.trades[trade], old.fills[trade]);
    for (const [wallet, at] of old.names) if (at < same) this.noteName(wallet, at);
  }

  /** The lanes that have entries. */
  laneNumbers() {
    if (this.laneList === undefined) this.laneList = [...new Set(this.lanes)].sort((one, other) => one - other);
    return this.laneList;
  }

  /** The entry of a number, from 0. */
  at(number) {
    const entry = readEntry(this.lines.at(this.first + number));
    return this.kinds[number] === HELD ? { ...entry, kind: HELD } : entry;
  }
}

/** The journal of a wallet: where its movements stand, their rows, and of each the market's number, the entry's, and the wallet's in that. */
class WalletJournal extends JournalLines {
  constructor(...place) {
    super(...place);
    const { count } = this;
    this.rows = [];
    this.isProbe = new Uint8Array(count);
    this.markets = new Uint16Array(count);
    this.entries = new Uint32Array(count);
    this.numbers = new Uint8Array(count);
  }

  /** Notes what the movement of a number, from 0, says. */
  note(at, move) {
    this.rows[at] = move.row;
    this.isProbe[at] = Number(move.kind === 'probe');
  }

  /** Notes what another journal noted of its first movements. */
  takeNotes(old, same) {
    this.rows = old.rows.slice(0, same);
    for (const name of ['isProbe', 'markets', 'entries', 'numbers']) this[name].set(old[name].subarray(0, same));
  }

  /** The movement of a number, from 0. */
  at(number) { return readMove(this.lines.at(this.first + number)); }
}

// The forms of lines, as messages tell them.
const FORMS = {
  entry: 'entry LANE ROW REPLY MOVES, as docs/FORMATS.md has it',
  move: 'move MARKET LANE ROW KIND AMOUNT BEFORE, as docs/FORMATS.md has it',
};

// Reads a journal's lines behind its head, in slices.
async function readJournal(journal, told, word, read, tell) {
  const { lines, first, count } = journal;
  for (let at = journal.same; at < count; at += 1) {
    const text = lines.at(first + at);
    const entry = read(text);
    if (entry === null) {
      const above = `Of the ${told} lines ${word} that line ${first - 1} tells, ${at} stand above`;
      throw new LineFault(first + at, `A line is wanted that reads ${FORMS[word]}; here stands ${frontOf(text)}. ${above}.`);
    }
    journal.note(at, entry);
    if (at % SLICE === SLICE - 1) await breathe(tell, first + at, (1 + (first + at) / lines.count) / 2);
  }
}

// The words of a line that begins a journal: its kind, address and count.
function headOf(text) {
  const words = wordsOfLine(text);
  const isHead = words.length === 3 && isAddress(words[1]) && isNumber(words[2]) && words[2].length < 8;
  return isHead ? { kind: words[0], address: words[1], count: Number(words[2]) } : { kind: '' };
}

// Reads all journals of one kind from a line on; answers the line behind them.
async function readJournals(lines, next, { kind, word, read, make, into, old }, tell) {
  for (;;) {
    const head = headOf(lines.at(next));
    if (head.kind !== kind) return next;
    if (into.has(head.address)) throw new LineFault(next, `The journal of ${kind} ${head.address} stands above already.`);
    // A text cut short is told before room is made for lines that are not there.
    const journal = make(next + 1, Math.min(head.count, lines.count + 1 - next));
    if (old.has(head.address)) journal.takeFront(old.get(head.address));
    await readJournal(journal, head.count, word, read, tell);
    into.set(head.address, journal);
    next += 1 + head.count;
  }
}

// The swaps of a report. The rows that the journals have must be as many as the first line tells; a swap is one row with two entries.
function swapsIn(rows, markets) {
  let entries = 0;
  for (const journal of markets.values()) entries += journal.count;
  if (entries === rows) return new Map();
  const swaps = pairLegs(markets);
  if (entries - swaps.size !== rows) throw new LineFault(1, `The report tells of ${rows} rows, and its markets’ journals have ${entries} entries.`);
  return swaps;
}

// Each journal's market or wallet stands in the dump, and each wallet that an entry names has a journal.
function checkAccounts(report, line) {
  for (const kind of ['markets', 'wallets']) {
    for (const address of report[kind].keys()) {
      if (!report.exchange[kind].has(address)) throw new LineFault(line, `The dump has no row for ${address}, whose journal stands above.`);
    }
  }
  for (const [address, number] of report.named) {
    if (!report.wallets.has(address)) throw new LineFault(number, `No journal below is that of the wallet ${address}, which this line names.`);
  }
}

// The journals of the report before, where it has the same markets; else none.
function journalsBefore(lines, before) {
  const markets = before === null ? [] : [...before.markets.keys()];
  let next = 2;
  for (const market of markets) {
    const head = headOf(lines.at(next));
    if (head.kind !== 'market' || head.address !== market) return { markets: new Map(), wallets: new Map() };
    next += 1 + head.count;
  }
  return before === null || headOf(lines.at(next)).kind === 'market' ? { markets: new Map(), wallets: new Map() } : before;
}

// Reads a report behind its first line.
async function readReportLines(lines, rows, tell, before) {
  const report = { kind: 'report', lines, rows, markets: new Map(), wallets: new Map(), named: new Map() };
  const ofMarket = (...place) => new MarketJournal(lines, report.named, ...place);
  const ofWallet = (...place) => new WalletJournal(lines, ...place);
  const old = journalsBefore(lines, before);
  const ofMarkets = { kind: 'market', word: 'entry', read: readEntry, into: report.markets, make: ofMarket, old: old.markets };
  const ofWallets = { kind: 'wallet', word: 'move', read: readMove, into: report.wallets, make: ofWallet, old: old.wallets };
  let next = await readJournals(lines, 2, ofMarkets, tell);
  next = await readJournals(lines, next, ofWallets, tell);
  if (lines.at(next) !== 'dump') {
    throw new LineFault(next, `The head of a journal or dump is wanted; here stands ${frontOf(lines.at(next))}.`);
  }
  report.swaps = swapsIn(rows, report.markets);
  const dump = await readDump(lines, next, tell);
  report.exchange = dump.exchange;
  checkAccounts(report, next);
  await checkMoves(report, tell);
  if (lines.at(dump.next) !== 'end') throw new LineFault(dump.next, `The line end is wanted; here stands ${frontOf(lines.at(dump.next))}.`);
  return { report, next: dump.next + 1 };
}

// Reads the lines of a report or of a dump alone.
async function readLines(lines, tell, before) {
  const head = wordsOfLine(lines.at(1));
  let read;
  if (lines.at(1) === 'dump') {
    const { exchange, next } = await readDump(lines, 1, tell);
    read = { report: { kind: 'dump', lines, rows: 0, markets: new Map(), wallets: new Map(), swaps: new Map(), exchange }, next };
  } else if (head.length === 2 && head[0] === 'report' && isNumber(head[1])) {
    read = await readReportLines(lines, exactNumber(head[1]), tell, before);
  } else {
    throw new LineFault(1, `A report begins with report and a number of rows, a dump with dump; here stands ${frontOf(lines.at(1))}.`);
  }
  if (read.next <= lines.count) {
    throw new LineFault(read.next, `Nothing is wanted behind the end; here stands ${frontOf(lines.at(read.next))}.`);
  }
  if (!lines.isEnded) throw new LineFault(lines.count, 'The last line is not ended.');
  return read.report;
}

/**
 * Reads a text as a report or as a dump alone; throws what is wrong with it, at its line. Lines at the front of journals that are those of a
 * report that was read before are not read again.
 */
export async function readText(text, tell = () => {}, before = null) {
  const lines = await linesOfText(text.startsWith('\ufeff') ? text.slice(1) : text, tell);
  try {
    return await readLines(lines, tell, before);
  } catch (fault) {
    const isCut = fault instanceof LineFault && fault.line >= lines.count && !lines.isEnded;
    if (isCut) fault.message += ' The text does not end with a line feed, so it may be cut short.';
    throw fault;
  }
}
