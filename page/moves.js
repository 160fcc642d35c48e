// The movements of wallets beside the entries that made them: each stands in the journal of its wallet as in that of its market.

import { breathe, frontOf, LineFault } from './text.js';

// After how many movements the time is looked at.
const MOVES_AT_ONCE = 200;

// The places of a market's entries by their rows.
function placesOfRows({ rows }) { return new Map(rows.map((row, at) => [row, at])); }

// The number, from the end, of the wallet that a line's entry names with just this movement; -1 where it names it with none.
function numberInEntry(line, wallet, { lane, row, kind, amount, before }) {
  const words = line.split(' ');
  const place = words.lastIndexOf(wallet);
  const isSame = words[1] === String(lane) && words[2] === String(row) && words[place + 1] === kind && words[place + 2] === String(amount)
    && words[place + 3] === String(before);
  return place > 4 && isSame && (words.length - place) % 4 === 0 ? (words.length - place) / 4 - 1 : -1;
}

// Notes that a wallet of an entry has its movement; answers what is wrong where it has one already.
function noteTold(market, at, number) {
  if ((market.told[at] >> number) & 1) return 'it stands above already';
  market.told[at] |= 1 << number;
  return null;
}

// Notes a movement at its entry; answers what is wrong with it, if anything.
function noteMove(market, wallet, move, journal, place) {
  if (market === undefined) return 'no market above has that address';
  const at = market.places.get(move.row);
  if (at === undefined) return `the journal of ${move.market} has no entry of that row`;
  const line = market.journal.lines.at(market.journal.first + at);
  const number = numberInEntry(line, wallet, move);
  if (number < 0) return `line ${market.journal.first + at} says of the row ${frontOf(line)}`;
  [journal.markets[place], journal.entries[place], journal.numbers[place]] = [market.number, at, number];
  return noteTold(market, at, number);
}

// Whether a movement and its entry are those of the report before, where they were found beside one another; then it is noted.
function isNotedAgain(markets, journal, place) {
  const market = place < journal.same ? markets[journal.markets[place]] : undefined;
  const at = journal.entries[place];
  const isSame = market !== undefined && at < market.journal.same && market.places.get(journal.rows[place]) === at;
  return isSame && noteTold(market, at, journal.numbers[place]) === null;
}

// Each wallet that an entry names has the movement.
function checkAllTold({ journal, told }) {
  const at = told.findIndex((bits, place) => bits !== (1 << journal.moves[place]) - 1);
  if (at >= 0) throw new LineFault(journal.first + at, 'A wallet that this line names has no movement of the row in its journal below.');
}

/** Sees that the movements in the journals of a report's wallets are those of its markets' entries; throws the first that is not, at its line. */
export async function checkMoves(report, tell) {
  const marketOf = (journal, number) => ({ journal, number, places: placesOfRows(journal), told: new Uint8Array(journal.count) });
  const markets = new Map([...report.markets].map(([address, journal], number) => [address, marketOf(journal, number)]));
  const numbered = [...markets.values()];
  for (const [wallet, journal] of report.wallets) {
    for (let at = 0; at < journal.count; at += 1) {
      if (isNotedAgain(numbered, journal, at)) continue;
      const move = journal.at(at);
      const wrong = noteMove(markets.get(move.market), wallet, move, journal, at);
      if (wrong !== null) throw new LineFault(journal.first + at, `The movement of ${wallet} is none that its row made: ${wrong}.`);
      if (at % MOVES_AT_ONCE === 0) await breathe(tell, journal.first + at, 1);
    }
  }
  for (const market of markets.values()) checkAllTold(market);
}
