// The texts that commands write in place of a report or dump: refusals, findings of an audit, the summary of bulk. Each is read whole.

import { SHORT_ANSWERS } from './faults.js';
import { frontOf, isAddress, isNumber, LineFault } from './text.js';

// Longer than any line of an answer.
const LONGEST_ANSWER = 1000;

// The forms of an answer's lines: the words that stand as they are, and names of those that differ; a name with a ? may be missing.
const ANSWER_FORMS = {
  finding: 'finding KIND ACCOUNT PLACE FOUND WANTED',
  failed: 'audit failed COUNT',
  fine: 'audit ok MARKETS WALLETS',
  script: 'script refused row ROW: K NAME CODE?',
  dump: 'dump refused row ROW: K NAME PLACED PLACE FOUND WANTED',
  migrate: 'migrate refused MARKET WHAT NEEDED GIVEN',
  bulk: 'bulk NUMBER ROWS',
  accepted: 'accepted A',
  refused: 'refused R',
  market: 'market MARKET bids BIDS asks ASKS events EVENTS coin COIN pc PC fees FEES',
};

// Whether a word may stand at a name.
function fits(name, word) {
  if (name === 'ACCOUNT' || name === 'MARKET') return isAddress(word);
  if (name === 'PLACED') return word === '-' || isAddress(word);
  if (name === 'NAME' || name === 'WHAT') return /^[A-Za-z]{1,20}$/.test(word);
  return isNumber(word);
}

// The words of a line by the names of a form; null where the line has another one.
function readForm(form, line) {
  if (line.length > LONGEST_ANSWER) return null;
  const names = form.split(' ');
  const words = line.replace(/: /, ' : ').split(' ').filter((word) => word !== ':');
  if (words.length > names.length) return null;
  const values = {};
  for (const [place, told] of names.entries()) {
    const name = told.replace(/[:?]$/, '');
    const word = words[place];
    if (word === undefined && told.endsWith('?')) continue;
    if (/^[a-z]/.test(name) ? word !== name : word === undefined || !fits(name, word)) return null;
    if (/^[A-Z]/.test(name)) values[name.toLowerCase()] = word;
  }
  return values;
}

/** Whether a text begins as a command's answer does. */
export function isAnswer(text) {
  return /^(finding|audit|script refused|dump refused|migrate refused|bulk|usage|read failed|input too long|no memory)\b/.test(text);
}

// Reads the lines of findings and the count behind them.
function readFindings(lines) {
  const findings = [];
  for (let number = 1; number < lines.count; number += 1) {
    const values = readForm(ANSWER_FORMS.finding, lines.at(number));
    if (values === null) throw new LineFault(number, `A line is wanted that reads ${ANSWER_FORMS.finding}; here stands ${frontOf(lines.at(number))}.`);
    findings.push({
      kind: Number(values.kind), account: values.account, place: Number(values.place), found: BigInt(values.found), wanted: BigInt(values.wanted),
    });
  }
  const last = readForm(ANSWER_FORMS.failed, lines.at(lines.count));
  if (last === null || Number(last.count) !== findings.length) {
    throw new LineFault(lines.count, `The line audit failed ${findings.length} is wanted; here stands ${frontOf(lines.at(lines.count))}.`);
  }
  return { kind: 'findings', status: 3, findings };
}

// Reads the summary of bulk.
function readBulk(lines, head) {
  const take = (number, form) => {
    const values = readForm(form, lines.at(number));
    if (values === null) throw new LineFault(number, `A line is wanted that reads ${form}; here stands ${frontOf(lines.at(number))}.`);
    return values;
  };
  const markets = [];
  for (let number = 4; number <= lines.count; number += 1) markets.push(take(number, ANSWER_FORMS.market));
  return { kind: 'bulk', status: 0, ...head, accepted: take(2, ANSWER_FORMS.accepted).a, refused: take(3, ANSWER_FORMS.refused).r, markets };
}

// The answers of one line: their kind and status by their form.
const ONE_LINE = [['fine', 0], ['script', 2], ['dump', 3], ['migrate', 8]];

/** Reads the text of an answer; throws at its line what is wrong with it. */
export function readAnswer(lines) {
  const first = lines.at(1);
  if (/^(finding|audit failed)/.test(first)) return readFindings(lines);
  const bulk = readForm(ANSWER_FORMS.bulk, first);
  if (bulk !== null) return readBulk(lines, bulk);
  if (lines.count > 1) throw new LineFault(2, `Nothing is wanted behind the answer; here stands ${frontOf(lines.at(2))}.`);
  for (const [kind, status] of ONE_LINE) {
    const values = readForm(ANSWER_FORMS[kind], first);
    if (values !== null) return { kind, status, ...values };
  }
  const short = SHORT_ANSWERS.find(([front]) => first.startsWith(front));
  if (short === undefined) throw new LineFault(1, `No command answers so: ${frontOf(first)}.`);
  return { kind: 'short', status: short[1], says: short[2], line: first };
}
