// The events that wait in a market's event queue, from the front.

import { amountNode, counted } from './amounts.js';
import { element } from './elements.js';
import { addressNode, linkTo, orderNode } from './links.js';
import { section, seekRow, tableWithDetails } from './parts.js';
import { owedBy } from './sums.js';
import { grouped } from './units.js';

// The tokens in which an event releases and pays.
function tokensOf(event) {
  const own = event.isBid ? 'pc' : 'coin';
  if (event.kind === 'out' || event.kind === 'releasing out') return { released: own, paid: own };
  return { released: event.isBid ? 'coin' : 'pc', paid: own };
}

// What an event owes, a line for each token.
function owedNodes(event, market) {
  const owed = owedBy(event);
  return ['coin', 'pc']
    .filter((token) => owed[token] > 0n)
    .map((token) => element('span', { class: 'line' }, amountNode(owed[token], token, market)));
}

// One event's cells and details.
function eventRow(shown, market, at) {
  const event = market.events.list[at];
  const tokens = tokensOf(event);
  return {
    name: `event ${at}`,
    cells: [
      at,
      `${event.kind} of ${event.isBid ? 'a bid' : 'an ask'}`,
      orderNode(shown, market, event),
      addressNode(shown, event.owner),
      amountNode(event.released, tokens.released, market),
      amountNode(event.paid, tokens.paid, market),
      event.kind.endsWith('fill') ? amountNode(event.fee, 'pc', market) : '',
      owedNodes(event, market),
    ],
    details: [['Order id', event.id], ['Slot', event.slot], ['Tier', event.tier], ['Client id', event.client]],
  };
}

/** The view of a market's pending events; `words.place` is the place of an event to choose. */
export function eventsView(shown, market, words) {
  const { list, capacity } = market.events;
  const table = tableWithDetails({
    label: 'Pending events, from the front',
    columns: [
      { title: 'Place', isNumber: true, size: '3.5rem' },
      { title: 'Event', isWide: true, size: '11rem' },
      { title: 'Order', size: 'minmax(9rem, 1.2fr)', isWide: true },
      { title: 'Owner', isWide: true },
      { title: 'Released', isNumber: true, isWide: true, size: 'minmax(8rem, 1fr)' },
      { title: 'Paid', isNumber: true, isWide: true, size: 'minmax(8rem, 1fr)' },
      { title: 'Fee or rebate', isNumber: true, isWide: true, size: 'minmax(7rem, 0.8fr)' },
      { title: 'Owes its owner', isNumber: true, isWide: true, size: 'minmax(8rem, 1fr)' },
    ].map((column) => ({ ...column, lines: 2, narrowLines: column.title === 'Owes its owner' ? 2 : 1 })),
    count: list.length,
    least: 1040,
    empty: 'No event waits.',
    linkOf: (at) => linkTo('events', market.address, { place: at }),
    rowAt: (at) => eventRow(shown, market, at),
  });
  const at = Number(words.place) < list.length ? Number(words.place) : -1;
  const told = words.place === undefined ? null : seekRow(table, at, `event ${words.place}`);
  return [
    told,
    section(`${grouped(list.length)} of ${grouped(capacity)} places are taken`,
      element('p', { class: 'hint' }, counted(list.length, 'event waits', 'events wait'), ' for the crank. A taker was paid at once; '
        + 'a maker’s fill and a releasing out owe what they release. '
        + 'Each order leads to the row that made it, or to its place in the book.'),
      table.node),
  ];
}
