// Which entries of a journal are shown: by lane, reply, refusal and account, or legs of swaps alone; with the script beside the report by
// what was asked and who signed too.

import { choice, element, tickBox } from './elements.js';
import { linkTo, shortAddress } from './links.js';
import { REFUSALS, REPLIES } from './replies.js';
import { scriptChoices } from './script_view.js';

const FILTERS = ['lane', 'kind', 'refusal', 'account', 'asked', 'signer', 'swaps'];

/** Whether words have a filter. */
export function isFiltered(words) { return FILTERS.some((name) => words[name] !== undefined); }

// The words of an entry that tell that an account or a person had to do with it: itself, the wallets of the person behind it, and
// the orders of the account that rest or are pending.
function wordsOf(shown, market, address) {
  const words = new Set([address]);
  const trader = market.traders.get(address);
  const person = trader === undefined || trader.state === 'blank' ? address : trader.owner;
  for (const wallet of shown.exchange.wallets.values()) if (wallet.owner === person) words.add(wallet.address);
  if (trader !== undefined) {
    for (const order of [...market.bids.orders, ...market.asks.orders, ...market.events.list]) {
      if (order.owner === address) words.add(String(order.id));
    }
  }
  return words;
}

// Whether a word stands in an entry's line, behind its lane, row and kind of reply.
function hasWord(line, word) { return line.split(' ').indexOf(word, 5) >= 0; }

// Marks the entries in whose lines one of some words stands; the text is searched as a whole, and only lines with a hit are cut out.
function entriesWith(journal, words) {
  const { lines, first, count } = journal;
  const isNamed = new Uint8Array(count);
  const end = lines.starts[first - 1 + count];
  for (const word of words) {
    let place = count === 0 ? -1 : lines.text.indexOf(` ${word}`, lines.starts[first - 1]);
    while (place >= 0 && place < end) {
      const number = lines.numberOf(place);
      if (hasWord(lines.at(number), word)) isNamed[number - first] = 1;
      place = lines.text.indexOf(` ${word}`, lines.starts[number]);
    }
  }
  return isNamed;
}

// Marks the entries of legs whose other leg has one of some words in its line.
function markLegs(shown, market, isNamed, words) {
  for (const legs of shown.report.swaps.values()) {
    const [own, other] = legs[0].address === market.address ? legs : [...legs].reverse();
    if (own.address !== market.address) continue;
    const { lines, first } = shown.report.markets.get(other.address);
    const line = lines.at(first + other.at);
    if ([...words].some((word) => hasWord(line, word))) isNamed[own.at] = 1;
  }
  return isNamed;
}

// Whether an entry has to do with an account, a wallet or a person: with the script by what its row names, else by the entry's words. A
// swap's row names what either leg does.
function accountTest(shown, market, journal, address) {
  const { joined } = shown;
  const sought = joined === null ? wordsOf(shown, market, address) : new Set([address]);
  const isNamed = markLegs(shown, market, entriesWith(journal, sought), sought);
  if (joined === null) return (at) => isNamed[at] === 1;
  const place = joined.placed.get(address) || -1;
  return (at) => {
    const row = journal.rows[at];
    return isNamed[at] === 1 || joined.accounts[row] === place || joined.signers[row] === place;
  };
}

/** The numbers of the entries that pass the filters. */
export function passing(shown, market, journal, words) {
  const { joined } = shown;
  const kind = REPLIES.findIndex((reply) => reply.kind === words.kind);
  const lane = words.lane === undefined ? -1 : Number(words.lane);
  const refusal = Number(words.refusal || 0);
  const isSought = words.swaps === 'only' ? (row) => shown.report.swaps.has(row) : () => true;
  const isOfAccount = words.account === undefined ? null : accountTest(shown, market, journal, words.account);
  const place = (word) => (word === undefined || joined === null ? 0 : joined.placed.get(word) || -1);
  const [asked, signer] = [place(words.asked), place(words.signer)];
  const numbers = [];
  for (let at = 0; at < journal.count; at += 1) {
    if (kind >= 0 && journal.kinds[at] !== kind) continue;
    if (lane >= 0 && journal.lanes[at] !== lane) continue;
    if (refusal > 0 && journal.refusals[at] !== refusal) continue;
    if (asked !== 0 && joined.names[journal.rows[at]] !== asked) continue;
    if (signer !== 0 && joined.signers[journal.rows[at]] !== signer) continue;
    if (!isSought(journal.rows[at])) continue;
    if (isOfAccount === null || isOfAccount(at)) numbers.push(at);
  }
  return numbers;
}

// Those addresses by which a journal can be filtered, with what they are.
function accountOptions(shown, market) {
  const options = [...market.traders.keys()].map((address) => [address, `${shortAddress(address)} (account)`]);
  const persons = new Set();
  for (const wallet of shown.exchange.wallets.values()) {
    options.push([wallet.address, `${shortAddress(wallet.address)} (wallet)`]);
    persons.add(wallet.owner);
  }
  return [...options, ...[...persons].map((person) => [person, `${shortAddress(person)} (person)`])];
}

/** The choices above the journal; each leads to the journal with that filter. */
export function journalChoices(shown, market, journal, words) {
  const go = (name) => (value) => {
    window.location.hash = linkTo('journal', market.address, { ...words, row: null, [name]: value });
  };
  const lanes = journal.laneNumbers();
  const lane = lanes.map((number) => [String(number), String(number)]);
  const hasSwaps = shown.report.swaps.size > 0;
  const kind = REPLIES.filter((reply) => hasSwaps || reply.kind !== 'held').map((reply) => [reply.kind, reply.title]);
  const refusal = REFUSALS.slice(1).map(({ name }, at) => [String(at + 1), `${at + 1} ${name}`]);
  const filter = (title, name, options) => choice(title, [['', 'all'], ...options], words[name] || '', go(name));
  return element('div', { class: 'filters' },
    filter('Lane', 'lane', lane),
    filter('Reply', 'kind', kind),
    filter('Refusal', 'refusal', refusal),
    filter('Account', 'account', accountOptions(shown, market)),
    shown.joined === null ? null : scriptChoices(shown.joined, words, go),
    hasSwaps ? tickBox('Swaps alone', words.swaps === 'only', (isTicked) => go('swaps')(isTicked ? 'only' : null)) : null,
    tickBox('Hide probes', words.probes === 'hidden', (isTicked) => go('probes')(isTicked ? 'hidden' : null)));
}
