// Parts that several views are made of.

import { base58Of, hexOfAddress } from './base58.js';
import { element } from './elements.js';
import { Table } from './table.js';
import { Stopped } from './text.js';

/** Named values as a list. */
export function facts(pairs) {
  const fact = ([name, value]) => element('div', {}, element('dt', {}, name), element('dd', {}, value));
  return element('dl', { class: 'facts' }, pairs.map(fact));
}

/** An address in full as named values: its label where it has one, its hexadecimal digits, and base58. */
export function addressFacts(address) {
  const hex = `0x${hexOfAddress(address)}`;
  const label = address === hex ? [] : [['Address', element('code', { 'data-name': 'label' }, address)]];
  return [
    ...label,
    ['Hexadecimal', element('code', { 'data-name': 'hexadecimal' }, hex)],
    ['Base58', element('code', { 'data-name': 'base58' }, base58Of(address))],
  ];
}

/** What tells how far reading is, with a button that stops it: `tell` takes what is read and how much of it was, and throws where it was stopped. */
export function readingBar(words) {
  let isStopped = false;
  const told = element('span', { role: 'status' }, words);
  const bar = element('progress', { 'max': '1', 'value': '0', 'aria-label': 'How much was read' });
  const stop = element('button', { 'type': 'button', 'data-key': 'stop', 'click': () => { isStopped = true; } }, 'Stop');
  const tell = (text, part) => {
    if (isStopped) throw new Stopped();
    told.textContent = text;
    bar.value = part;
  };
  return { node: element('p', { class: 'progress' }, told, ' ', bar, ' ', stop), tell };
}

/** A part of a view under a heading. */
export function section(title, ...children) {
  return element('section', {}, element('h2', {}, title), children);
}

/** A sentence that tells what a link asked for and the text has not, or what could not be used. */
export function notice(text) {
  return element('p', { 'class': 'notice', 'role': 'status', 'data-name': 'notice' }, text);
}

/**
 * A table with the chosen row's values told in full below it; `rowAt` may give further `details` of a row, and `linkOf` the fragment of a
 * row, which the page's address becomes when the row is chosen.
 */
export function tableWithDetails(options) {
  const details = element('div', { 'class': 'details', 'aria-live': 'polite' });
  const table = new Table({
    ...options,
    select: (at) => {
      const row = options.rowAt(at);
      const pairs = row.cells.map((cell, place) => [options.columns[place].title, cell]);
      details.replaceChildren(facts([...pairs, ...(row.details || [])]));
    },
  });
  return { table, node: element('div', {}, table.node, details) };
}

/** Chooses the row that a link asks for; answers a notice where the table has none. */
export function seekRow({ table }, at, what) {
  if (at < 0) return notice(`There is no ${what} here.`);
  table.choose(at, true);
  return null;
}
