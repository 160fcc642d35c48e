// The depth of a book: cumulated lots by price, bids to the left and asks to the right, with a text that says the same.

import { counted } from './amounts.js';
import { axes, FRAME, pointed, ticks } from './axes.js';
import { drawn, element, withWidth } from './elements.js';
import { priceNumber, priceText, priceUnit, sizeNumber, sizeText, sizeUnit } from './units.js';

// The range of prices: all, or those within a factor of two of the best ones where the far ones would hide them.
function rangeOf(bids, asks, isWhole) {
  const near = [...bids.slice(0, 1), ...asks.slice(0, 1)].map(({ at }) => at);
  const all = [...bids, ...asks].map(({ at }) => at);
  let low = Math.min(...all);
  let high = Math.max(...all);
  const isFar = low < Math.min(...near) / 2 || high > Math.max(...near) * 2;
  if (isFar && !isWhole) [low, high] = [Math.max(low, Math.min(...near) / 2), Math.min(high, Math.max(...near) * 2)];
  const margin = high > low ? (high - low) * 0.04 : Math.max(high * 0.02, 1e-12);
  return { low: Math.max(0, low - margin), high: high + margin, isFar };
}

// The path of a side: a step at each level, from the best price away from the spread.
function stepsOf(levels, far, x, y) {
  let path = `M${x(levels[0].at)} ${y(0)}`;
  for (const level of levels) path += `H${x(level.at)}V${y(level.up)}`;
  return { line: `${path}H${x(far)}`, area: `${path}H${x(far)}V${y(0)}Z` };
}

// The drawing at a width.
function depthDrawing(bids, asks, market, width, isWhole) {
  const range = rangeOf(bids, asks, isWhole);
  const isIn = ({ at }) => at >= range.low && at <= range.high;
  const sides = [[bids.filter(isIn), 'bid', range.low], [asks.filter(isIn), 'ask', range.high]].filter(([levels]) => levels.length > 0);
  const most = Math.max(...sides.map(([levels]) => levels[levels.length - 1].up)) * 1.06;
  const x = (price) => FRAME.left + ((price - range.low) / (range.high - range.low)) * (width - FRAME.left - FRAME.right);
  const y = (lots) => FRAME.height - FRAME.bottom - (lots / most) * (FRAME.height - FRAME.top - FRAME.bottom);
  const names = { across: `price, ${priceUnit(market)}`, up: `${sizeUnit(market)}, cumulated` };
  const steps = sides.map(([levels, name, far]) => {
    const { line, area } = stepsOf(levels, far, x, y);
    return [drawn('path', { class: `area ${name}`, d: area }), drawn('path', { class: `line ${name}`, d: line })];
  });
  const lines = axes({ across: ticks(range.low, range.high), up: ticks(0, most), x, y, width, names });
  return { x, levels: sides.flatMap(([levels]) => levels), nodes: [lines, steps] };
}

// What a side says in words.
function sideText(name, levels, market) {
  if (levels.length === 0) return `No ${name}s.`;
  const orders = levels.reduce((sum, level) => sum + level.orders, 0);
  const last = levels[levels.length - 1];
  const price = (level) => priceText(level.price, market);
  const ends = levels.length === 1 ? `at ${price(levels[0])}` : `from ${price(levels[0])} to ${price(last)}`;
  return `${sizeText(last.total, market)} ${sizeUnit(market)} in ${counted(orders, name)} ${ends}.`;
}

// What a level says under the pointer.
function levelText(level, market) {
  const side = level.isBid ? 'bid' : 'ask';
  return `${side} ${priceText(level.price, market)}: ${sizeText(level.lots, market)} ${sizeUnit(market)} in ${counted(level.orders, 'order')}, `
    + `${sizeText(level.total, market)} up to here`;
}

// The level that is nearest to a place across.
function nearestLevel({ x, levels }, place, market) {
  let best = null;
  for (const level of levels) if (best === null || Math.abs(x(level.at) - place) < Math.abs(x(best.at) - place)) best = level;
  return best === null ? null : { x: x(best.at), text: levelText(best, market) };
}

/** The chart of two sides' levels. */
export function depthChart(bidLevels, askLevels, market) {
  const placed = (levels) => levels.map((level) => ({ ...level, at: priceNumber(level.price, market), up: sizeNumber(level.total, market) }));
  const [bids, asks] = [placed(bidLevels), placed(askLevels)];
  const text = `${sideText('bid', bids, market)} ${sideText('ask', asks, market)}`;
  const caption = element('figcaption', { 'data-name': 'depth' }, text);
  if (bids.length + asks.length === 0) return element('figure', { class: 'chart' }, caption);
  const svg = drawn('svg', { 'role': 'img', 'aria-label': `Depth. ${text}`, 'height': FRAME.height, 'data-name': 'depth chart' });
  let isWhole = false;
  let now = { x: null, levels: [] };
  const draw = () => {
    const width = Math.max(svg.parentNode.clientWidth, 280);
    svg.setAttribute('viewBox', `0 0 ${width} ${FRAME.height}`);
    now = depthDrawing(bids, asks, market, width, isWhole);
    svg.replaceChildren(...now.nodes.flat(Infinity));
  };
  const frame = element('div', {}, svg);
  withWidth(frame, draw);
  const turn = rangeOf(bids, asks, false).isFar ? element('button', { type: 'button', click: (event) => {
    isWhole = !isWhole;
    event.target.textContent = isWhole ? 'Prices near the spread' : 'All prices';
    draw();
  } }, 'All prices') : null;
  return element('figure', { class: 'chart' }, frame, pointed(svg, (place) => nearestLevel(now, place, market)), caption, turn);
}
