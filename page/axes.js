// What charts share: round marks along an axis, short numbers, the pointer's line and text.

import { drawn, element } from './elements.js';
import { grouped } from './units.js';

/** The edges and the height of a drawing. */
export const FRAME = { left: 64, right: 16, top: 12, bottom: 34, height: 260 };

/** Round numbers that cut a range into some four parts. */
export function ticks(from, to) {
  const wanted = (to - from) / 4;
  if (!(wanted > 0)) return [from];
  const power = 10 ** Math.floor(Math.log10(wanted));
  const step = power * [1, 2, 5, 10].find((factor) => power * factor >= wanted * 0.999);
  const marks = [];
  for (let mark = Math.ceil(from / step); mark * step <= to; mark += 1) marks.push(mark * step);
  return marks;
}

// A number in few letters.
function brief(number) {
  if (number >= 1e9) return number.toExponential(2);
  const text = String(Number(number.toPrecision(6)));
  if (text.includes('e')) return text;
  const [whole, part] = text.split('.');
  return part === undefined ? grouped(whole) : `${grouped(whole)}.${part}`;
}

/** The lines and numbers along the two axes of a drawing of a width. */
export function axes({ across, up, x, y, width, names }) {
  const { left, right, top, bottom, height } = FRAME;
  return [
    across.map((mark) => [
      drawn('line', { class: 'grid', x1: x(mark), x2: x(mark), y1: top, y2: height - bottom }),
      drawn('text', { 'x': x(mark), 'y': height - bottom + 16, 'text-anchor': 'middle' }, brief(mark)),
    ]),
    up.map((mark) => [
      drawn('line', { class: 'grid', x1: left, x2: width - right, y1: y(mark), y2: y(mark) }),
      drawn('text', { 'x': left - 8, 'y': y(mark) + 4, 'text-anchor': 'end' }, brief(mark)),
    ]),
    drawn('text', { 'x': width - right, 'y': height - 3, 'text-anchor': 'end', 'class': 'axis' }, names.across),
    drawn('text', { x: 4, y: height - 3, class: 'axis' }, names.up),
  ];
}

/** Tells the value that stands nearest to the pointer: `near` gives the place and the text of a place across. */
export function pointed(svg, near) {
  const mark = drawn('line', { class: 'pointer', y1: FRAME.top, y2: FRAME.height - FRAME.bottom, visibility: 'hidden' });
  const text = element('p', { 'class': 'pointed', 'data-name': 'pointed' }, '\u00a0');
  svg.addEventListener('pointermove', (event) => {
    const { left, width } = svg.getBoundingClientRect();
    const found = near(((event.clientX - left) / width) * svg.viewBox.baseVal.width);
    if (found === null) return;
    if (mark.parentNode !== svg) svg.append(mark);
    mark.setAttribute('x1', found.x);
    mark.setAttribute('x2', found.x);
    mark.setAttribute('visibility', 'visible');
    text.textContent = found.text;
  });
  svg.addEventListener('pointerleave', () => {
    mark.setAttribute('visibility', 'hidden');
    text.textContent = '\u00a0';
  });
  return text;
}
