// Replies and refusals as sentences in which the numbers are named.

import { orderOfId } from './accounts.js';
import { amountNode, counted, numberNode, sizeNode, tokenOf } from './amounts.js';
import { element } from './elements.js';
import { addressNode, entryNode, linkTo, orderNode, shortAddress } from './links.js';
import { DATA_RULES, REFUSALS, REPLIES } from './replies.js';
import { otherLeg } from './swaps.js';
import { isInTokens } from './units.js';

// A bid's id has the complement of its sequence number in its lower half, so the half tells the side.
function orderOf(id) {
  return orderOfId(id, (id & 0x8000000000000000n) !== 0n);
}

// A sentence with nodes in the place of words in braces.
function fill(sentence, nodes) {
  return sentence.split(/[{}]/).map((text, at) => (at % 2 === 0 ? text : nodes(text)));
}

// The token of the wallet that pays, which is a wallet of the row with the balance that the refusal tells.
function payingToken(shown, market, entry) {
  const tokens = entry.moves
    .filter((move) => move.before === entry.values.balance)
    .map((move) => tokenOf(shown.exchange.wallets.get(move.wallet).mint, market));
  return tokens.length > 0 && tokens.every((token) => token === tokens[0]) ? tokens[0] : null;
}

// A refusal, its numbers by their names.
function refusalNodes(shown, market, entry) {
  const { values, refusal } = entry;
  const token = refusal === 22 ? payingToken(shown, market, entry) : null;
  return fill(REFUSALS[refusal].sentence, (name) => {
    if (name === 'rule_says') return (DATA_RULES[values.rule] || ['of no name', '']).filter((text) => text !== '').join(': ');
    if (name === 'wanting') return amountNode(values.deposit - values.balance, token, market, name);
    if (name === 'order') return orderNode(shown, market, orderOf(values.order));
    if (typeof values[name] === 'string') return addressNode(shown, values[name]);
    return refusal === 22 ? amountNode(values[name], token, market, name) : numberNode(values[name], name);
  });
}

// A number of lots in a sentence.
function lotsNode(lots, market) {
  return isInTokens(market) ? sizeNode(lots, market) : element('data', { value: String(lots) }, counted(lots, 'lot'));
}

// The market of a swap's other leg.
function otherNode(shown, market, { row }) { return entryNode(otherLeg(shown.report, row, market.address).address, row); }

// What an accepted row was answered.
function answerNodes(shown, market, entry) {
  const { values } = entry;
  const coin = (name) => amountNode(values[name], 'coin', market, name);
  const pc = (name) => amountNode(values[name], 'pc', market, name);
  const filled = () => ['filled ', lotsNode(values.lots, market), ' for ', pc('pc'), ', fee ', pc('fee')];
  const traded = () => (values.lots === 0n ? 'filled nothing' : filled());
  switch (REPLIES[entry.kind].kind) {
    case 'order': {
      const rests = values.rested === 1n || isInTokens(market) ? ' rests' : ' rest';
      const rested = values.rested === 0n ? 'nothing rests' : [lotsNode(values.rested, market), rests];
      return ['The ', orderNode(shown, market, orderOf(values.id)), `, slot ${values.slot}, `, traded(), '; ', rested, '.'];
    }
    case 'take': return ['The take ', traded(), '.'];
    case 'cancelled': return [counted(values.count, 'order was', 'orders were'), ' taken from the book.'];
    case 'consumed': return [counted(values.count, 'event was', 'events were'), ' consumed.'];
    case 'settled': return ['Paid out: ', coin('coin'), ' of coin, ', pc('pc'), ' of pc, and ', pc('referrer'), ' to the referrer.'];
    case 'swept': return ['Swept ', pc('pc'), ' of fees.'];
    case 'held': return ['It did nothing, since the other leg, on ', otherNode(shown, market, entry), ', was refused.'];
    default: return shown.joined === null ? ['Done: an account opened or closed, the market disabled, or MatchOrders.'] : ['Done.'];
  }
}

/** What a row was answered, as a sentence. */
export function sentenceNode(shown, market, entry) {
  const nodes = entry.refusal === 0 ? answerNodes(shown, market, entry) : refusalNodes(shown, market, entry);
  return element('span', { class: 'sentence' }, nodes);
}

/** The short name of an entry's reply; a refusal with its number and name. */
export function replyTitle(entry) {
  return entry.refusal === 0 ? REPLIES[entry.kind].title : `${entry.refusal} ${REFUSALS[entry.refusal].name}`;
}

/** A swap's other leg than the one on a market, with what it was answered, as a named value; none where the row is no swap. */
export function otherLegFacts(shown, market, row) {
  const other = otherLeg(shown.report, row, market.address);
  if (other === null) return [];
  const entry = shown.report.markets.get(other.address).at(other.at);
  const told = sentenceNode(shown, shown.exchange.markets.get(other.address), entry);
  return [['The swap’s other leg', ['on ', entryNode(other.address, row), `, ${replyTitle(entry)}: `, told]]];
}

/** What a row did to a wallet, as a link to that movement. */
export function moveNode(shown, market, entry, move) {
  const wallet = shown.exchange.wallets.get(move.wallet);
  const sign = { probe: '', debit: '−', credit: '+' }[move.kind];
  const href = linkTo('wallets', move.wallet, { row: entry.row, market: market.address });
  const what = move.kind === 'probe' ? ' unchanged' : [` ${sign}`, amountNode(move.amount, tokenOf(wallet.mint, market), market)];
  return element('a', { href, class: `move ${move.kind}` }, shortAddress(move.wallet), what);
}
