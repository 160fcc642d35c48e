// The live page: the book and the trades of a market, as the gateway's events tell them.

import { choice, element } from '../../page/elements.js';
import { Markets } from './feed.js';

let markets = new Markets();
let chosen = null;
let isDrawn = true;
const state = element('span', { class: 'quiet', role: 'status' }, 'connecting ..');
const bar = element('span');
const body = element('main');

/** A row of the book, with a bar as long as its share of the most lots. */
function levelRow(level, side, most) {
  const share = `${Math.round(100 * Number(level.lots) / most)}%`;
  return element('tr', { class: side },
    element('td', {}, side === 'bid' ? level.lots : ''), element('td', { class: 'price' }, level.price),
    element('td', {}, side === 'ask' ? level.lots : ''), element('td', { class: 'share' }, element('i', { style: `width: ${share}` })));
}

/** The book: asks above, bids below, the best prices in the middle. */
function bookTable({ bids, asks }) {
  const most = Math.max(1, ...[...bids, ...asks].map((level) => Number(level.lots)));
  const rows = [...[...asks].reverse().map((level) => levelRow(level, 'ask', most)), ...bids.map((level) => levelRow(level, 'bid', most))];
  return element('table', { class: 'live' }, element('caption', {}, 'Ten best prices of each side'),
    element('thead', {}, element('tr', {}, ['Bid lots', 'Price', 'Ask lots', ''].map((word) => element('th', { scope: 'col' }, word)))),
    element('tbody', {}, rows.length ? rows : element('tr', {}, element('td', { colspan: '4' }, 'Nothing rests here.'))));
}

/** The last trades, the newest first. */
function tradeTable({ trades }) {
  const rows = trades.map((trade) => element('tr', { class: trade.side },
    [trade.time, trade.row, trade.side === 'bid' ? 'buys' : 'sells', trade.lots, trade.quote].map((text) => element('td', {}, text))));
  return element('table', { class: 'live' }, element('caption', {}, 'Last trades, by who took'),
    element('thead', {}, element('tr', {}, ['Told at', 'Row', 'Taker', 'Lots', 'Quote'].map((word) => element('th', { scope: 'col' }, word)))),
    element('tbody', {}, rows.length ? rows : element('tr', {}, element('td', { colspan: '5' }, 'No trade yet.'))));
}

/** Draws what is known, once for all lines that came together. */
function draw() {
  isDrawn = true;
  const names = [...markets.byName.keys()].sort();
  if (!names.includes(chosen)) chosen = names[0] ?? null;
  bar.replaceChildren(...names.length > 1 ? [choice('Market', names.map((name) => [name, name]), chosen, (name) => { chosen = name; draw(); })] : []);
  const market = markets.byName.get(chosen);
  if (!market) return body.replaceChildren(element('p', { class: 'empty' }, 'No market is known yet.'));
  return body.replaceChildren(element('h1', {}, `Market ${market.name}`),
    element('div', { class: 'beside' }, element('section', {}, bookTable(market)), element('section', {}, tradeTable(market))));
}

/** Has all drawn soon. */
function drawSoon() {
  if (!isDrawn) return;
  isDrawn = false;
  requestAnimationFrame(draw);
}

/** Listens. Each connection begins with all that stands, so nothing of an earlier one is kept. */
function listen() {
  const source = new EventSource('/events');
  source.addEventListener('open', () => {
    markets = new Markets();
    state.textContent = 'live';
    drawSoon();
  });
  source.addEventListener('error', () => { state.textContent = 'not connected: what is shown is old; trying again ..'; });
  source.addEventListener('message', ({ data }) => {
    markets.take(data, new Date().toTimeString().slice(0, 8));
    drawSoon();
  });
}

document.body.replaceChildren(element('header', {}, element('div', { class: 'bar' }, element('strong', {}, 'Daisyhook: live'), bar, state)), body,
  element('footer', {}, element('p', {}, 'Prices are in pc lots a coin lot, lots are coin lots, quote is native. A trade is told once its row is on the disk.')));
draw();
listen();
