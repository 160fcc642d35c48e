// Parts of the bar above the views that both pages have, this one and play.html: choices, keys, faults of texts.

import { choice, element } from './elements.js';
import { drawView, goToView } from './navigation.js';
import { faultText } from './opening.js';
import { units } from './units.js';

/** What is wrong with a text, as an element. */
export function faultNode({ name, fault }) {
  return element('p', { 'class': 'fault', 'role': 'alert', 'data-name': 'fault' }, `${name}: ${faultText(fault)}`);
}

/** The units in which amounts are shown. */
export function unitsChoice() {
  const change = (value) => {
    units.isNative = value === 'native';
    drawView();
  };
  return choice('Amounts', [['tokens', 'in tokens'], ['native', 'native, lots']], 'tokens', change);
}

/** The light or dark look, or the one that the system has. */
export function themeChoice() {
  const change = (theme) => {
    if (theme === '') delete document.documentElement.dataset.theme;
    else document.documentElement.dataset.theme = theme;
  };
  return choice('Look', [['', 'as the system'], ['light', 'light'], ['dark', 'dark']], '', change);
}

/** What keys do, as the page tells it. */
export const KEYS = [
  ['/', 'search'], ['1 to 9', 'the first nine views'], ['o', 'open files'], ['arrows, Page, Home, End', 'move in a table that has the focus'],
  ['Enter', 'follow the chosen row’s first link to elsewhere'], ['Escape', 'leave the search'],
];

/** Keys and what they do, as a line. */
export function keysNode(keys) {
  return element('p', { class: 'keys' }, keys.map(([key, what]) => [element('kbd', {}, key), ` ${what} `]));
}

/** A link to a part of the page that stands first for keys. */
export function skipLink(text, to) {
  const go = (event) => {
    event.preventDefault();
    to.focus();
  };
  return element('a', { href: `#${to.id}`, class: 'skip', click: go }, text);
}

/** Hears keys that are no text in a field. */
export function hearKeys(search, openFiles) {
  document.addEventListener('keydown', (event) => {
    if (event.ctrlKey || event.metaKey || event.altKey) return;
    if (event.target.closest('input, select, textarea')) {
      if (event.key === 'Escape') event.target.blur();
      return;
    }
    if (event.key === '/') search.focus();
    else if (event.key === 'o') openFiles();
    else if (!/^[1-9]$/.test(event.key) || !goToView(Number(event.key) - 1)) return;
    event.preventDefault();
  });
}
