// What stands below the field: the row at fault and how it is mended; the fields of the row at the caret, what is offered there, and how the
// row was answered.

import { element } from '../page/elements.js';
import { entryNode, rowNode } from '../page/links.js';
import { replyTitle, sentenceNode } from '../page/sentences.js';
import { setupWords } from '../page/setup_words.js';
import { legsInOrder } from '../page/swap_table.js';

// The entries of a row in the journals of a report: one, or those of a swap's legs in their order.
function entriesOf(shown, row) {
  if (shown.report.swaps.has(row)) return legsInOrder(shown, row);
  const found = [];
  for (const [address, journal] of shown.report.markets) {
    const at = journal.rows.indexOf(row);
    if (at >= 0) found.push({ market: shown.exchange.markets.get(address), entry: journal.at(at) });
  }
  return found;
}

// How a row was answered; of a swap, each leg on its market.
function answerNodesOf(shown, row) {
  const entries = entriesOf(shown, row);
  const place = (address) => (entries.length === 1 ? rowNode(address, row) : [`row ${row} on `, entryNode(address, row)]);
  return entries.map(({ market, entry }) => element('p', { 'class': entry.refusal > 0 ? 'reply bad' : 'reply', 'data-name': 'reply' },
    place(market.address), `${entries.length === 1 ? ' ' : ', '}${replyTitle(entry)}: `, sentenceNode(shown, market, entry)));
}

/** The panel below the field; `take` is told of an offer that was chosen, `go` of a row to go to. */
export class Help {
  constructor({ take, go }) {
    this.take = take;
    this.go = go;
    this.offers = [];
    this.faultNode = element('div', { 'class': 'row-fault', 'role': 'status', 'data-name': 'row fault' });
    this.fields = element('p', { class: 'row-fields', id: 'help' });
    this.chips = element('div', { class: 'offers' });
    this.reply = element('div', { class: 'row-reply' });
    this.node = element('div', { class: 'help' }, this.faultNode, this.fields, this.chips, this.reply);
  }

  /** Tells which row is at fault, or none. */
  setFault(fault) {
    if (fault === null) {
      this.faultNode.replaceChildren();
      return;
    }
    const { row, title, what, remedy, canGo } = fault;
    const go = element('button', { type: 'button', click: () => this.go(row) }, `Go to row ${row}`);
    this.faultNode.replaceChildren(
      element('p', { class: 'fault' }, element('strong', {}, `Row ${row}: ${title}. `), `Here ${what}. ${remedy} `, canGo ? go : null));
  }

  /** Shows what stands at the caret: a hint, the row's number (null: none) and its fields; `shown` is the report that belongs to it, or null. */
  setPlace(hint, row, fields, shown) {
    const mark = (name, at) => [at === 0 ? '' : ' · ', at === hint.now ? element('strong', {}, name) : element('span', { class: 'quiet' }, name)];
    const says = element('span', { 'data-name': 'says' }, hint.says);
    this.fields.replaceChildren(...[row === null ? '' : `Row ${row}: `, hint.names.map(mark), ' – ', says].flat(3));
    this.offers = hint.offers;
    this.piece = hint.piece;
    const chip = (offer) => element('button', { type: 'button', class: 'offer', title: offer.title || null, click: () => this.choose(offer) },
      offer.text || (offer.word.length > 24 ? `${offer.word.slice(0, 22)}…` : offer.word));
    this.chips.replaceChildren(...hint.offers.map(chip));
    const words = setupWords(fields);
    const told = row === null || shown === null ? [] : answerNodesOf(shown, row);
    this.reply.replaceChildren(...(told.length > 0 || words === null ? told : [element('p', { class: 'quiet' }, `${words}.`)]));
  }

  /** Takes an offer; the first that differs from what stands there where none is named. Tells whether there is one. */
  choose(offer = this.offers.find(({ word }) => word !== this.piece.text)) {
    if (offer === undefined) return false;
    this.take(this.piece, offer.word);
    return true;
  }
}
