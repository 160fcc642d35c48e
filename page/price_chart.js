// A market's prices over its rows: the average price of each row that filled something, by the taker's side.

import { axes, FRAME, pointed, ticks } from './axes.js';
import { counted } from './amounts.js';
import { drawn, element, withWidth } from './elements.js';
import { tradeAt } from './trades.js';
import { averageNumber, averageText, priceUnit, sizeText, sizeUnit } from './units.js';

const MOST_DOTS = 1500;

// The points of a chart: row, price, side.
function pointsOf(shown, market, journal) {
  return journal.trades.map((at, number) => {
    const { row, side, pc, lots } = tradeAt(shown, market, journal, number);
    return { number, row: Number(row), side, price: averageNumber(pc, lots, market) };
  });
}

// Where points stand in a drawing of a width.
function scaleOf(points, width) {
  const rows = [points[0].row, points[points.length - 1].row];
  const prices = points.reduce(([low, high], { price }) => [Math.min(low, price), Math.max(high, price)], [Infinity, -Infinity]);
  const margin = prices[1] > prices[0] ? (prices[1] - prices[0]) * 0.08 : Math.max(prices[0] * 0.02, 1e-12);
  const [low, high] = [Math.max(0, prices[0] - margin), prices[1] + margin];
  const span = Math.max(1, rows[1] - rows[0]);
  return {
    rows,
    low,
    high,
    x: (row) => FRAME.left + 6 + ((row - rows[0]) / span) * (width - FRAME.left - FRAME.right - 12),
    y: (price) => FRAME.height - FRAME.bottom - ((price - low) / (high - low)) * (FRAME.height - FRAME.top - FRAME.bottom),
  };
}

// The line of the last price at each row; of many points that share a pixel the first, the least, the greatest and the last are drawn.
function lineOf(points, { x, y }) {
  let path = '';
  for (let from = 0; from < points.length;) {
    const place = Math.round(x(points[from].row));
    let to = from;
    while (to < points.length && Math.round(x(points[to].row)) === place) to += 1;
    const group = points.slice(from, to);
    const prices = group.map(({ price }) => price);
    const heights = [prices[0], Math.min(...prices), Math.max(...prices), prices[prices.length - 1]];
    const across = x(points[from].row).toFixed(1);
    path += path === '' ? `M${across} ${y(prices[0]).toFixed(1)}` : `H${across}`;
    for (const price of group.length > 1 ? heights : prices) path += `V${y(price).toFixed(1)}`;
    from = to;
  }
  return drawn('path', { class: 'line price', d: path });
}

// The nodes of the drawing.
function priceDrawing(points, scale, market, width) {
  const names = { across: 'row of the script', up: priceUnit(market) };
  const rows = ticks(scale.rows[0], Math.max(scale.rows[1], scale.rows[0] + 4)).filter((row) => Number.isInteger(row) && row <= scale.rows[1]);
  const { x, y } = scale;
  const dots = points.length > MOST_DOTS ? [] : points.map(({ row, price, side }) => drawn('circle', { class: side || '', cx: x(row), cy: y(price), r: 3.5 }));
  return [axes({ across: rows, up: ticks(scale.low, scale.high), x, y, width, names }), lineOf(points, scale), dots];
}

// The point whose row is nearest to a place across.
function nearestPoint(points, { x }, place) {
  let [low, high] = [0, points.length - 1];
  while (high - low > 1) {
    const middle = (low + high) >> 1;
    if (x(points[middle].row) <= place) low = middle;
    else high = middle;
  }
  return Math.abs(x(points[low].row) - place) <= Math.abs(x(points[high].row) - place) ? points[low] : points[high];
}

/** The chart of a market's prices. */
export function priceChart(shown, market) {
  const journal = shown.report.markets.get(market.address);
  if (journal === undefined) return element('p', { class: 'empty' }, 'A dump tells no trades.');
  if (journal.trades.length === 0) return element('p', { class: 'empty' }, 'Nothing was traded.');
  const points = pointsOf(shown, market, journal);
  const prices = points.map(({ price }) => price);
  const extreme = (isBetter) => prices.reduce((best, price, at) => (isBetter(price, prices[best]) ? at : best), 0);
  const told = (number) => {
    const { pc, lots } = tradeAt(shown, market, journal, number);
    return averageText(pc, lots, market);
  };
  const text = `${counted(points.length, 'trade')}: first ${told(0)}, highest ${told(extreme((one, other) => one > other))}, `
    + `lowest ${told(extreme((one, other) => one < other))}, last ${told(points.length - 1)}.`;
  const svg = drawn('svg', { 'role': 'img', 'aria-label': `Prices by row. ${text}`, 'height': FRAME.height, 'data-name': 'price chart' });
  let scale = null;
  const frame = element('div', {}, svg);
  withWidth(frame, () => {
    const width = Math.max(frame.clientWidth, 280);
    svg.setAttribute('viewBox', `0 0 ${width} ${FRAME.height}`);
    scale = scaleOf(points, width);
    svg.replaceChildren(...priceDrawing(points, scale, market, width).flat(Infinity));
  });
  const near = (place) => {
    const { number, row } = nearestPoint(points, scale, place);
    const { side, lots, pc } = tradeAt(shown, market, journal, number);
    const deed = { bid: 'buys', ask: 'sells' }[side] || 'trades';
    return { x: scale.x(row), text: `row ${row}: the taker ${deed} ${sizeText(lots, market)} ${sizeUnit(market)} at ${averageText(pc, lots, market)}` };
  };
  return element('figure', { class: 'chart' }, frame, pointed(svg, near), element('figcaption', { 'data-name': 'prices' }, text));
}
