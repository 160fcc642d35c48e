// Which view is on the page: what the fragment of the page's address asks for, the tabs, and where the focus goes.

import { choice, element } from './elements.js';
import { linkTo, readLink, shortAddress } from './links.js';
import { notice } from './parts.js';
import { viewsOf } from './views.js';

/** The parts of the page that change with the view, and the market that was shown last. */
export const frame = {
  shown: null,
  market: '',
  main: element('main', { 'id': 'main', 'tabindex': '-1' }),
  tabs: element('nav', { 'aria-label': 'Views' }),
};

// The market that a link is about, else the one shown last, else the first.
function marketOf(link, markets) {
  return markets.get(link.subject) || (link.subject === '' && markets.get(frame.market)) || markets.values().next().value;
}

// How many findings there are, beside the audit's tab.
function findingsMark() {
  const { length } = frame.shown.findings;
  return length === 0 ? null : element('span', { class: 'bad' }, ` (${length})`);
}

// The tabs of views, and a choice among markets where there are several.
function drawTabs(views, view, market) {
  const { markets } = frame.shown.exchange;
  const links = views.map(({ name, title, ofMarket }, at) => element('a', {
    'href': linkTo(name, ofMarket ? frame.market : ''),
    'aria-current': view !== null && name === view.name ? 'page' : null,
    'data-key': `tab ${name}`,
    'title': at < 9 ? `key ${at + 1}` : null,
  }, title, name === 'audit' ? findingsMark() : null));
  const go = (address) => { window.location.hash = linkTo(view.name, address); };
  const isChoice = view !== null && view.ofMarket && market !== undefined && markets.size > 1;
  const options = [...markets.keys()].map((address) => [address, shortAddress(address)]);
  frame.tabs.replaceChildren(...links, ...(isChoice ? [choice('Market', options, market.address, go)] : []));
}

// What a link shows that asks for what is not there.
function strayLink(text) {
  return [element('h1', {}, 'Not in this text'), notice(`${text} Choose a view above.`)];
}

// The heading and the nodes of a view.
function contentOf(view, market, link) {
  const { shown } = frame;
  const isNode = (node) => node !== null && node !== undefined;
  if (!view.ofMarket) return [element('h1', {}, view.title), ...view.show(shown, link.subject, link.words).flat(Infinity).filter(isNode)];
  if (market === undefined) return [element('h1', {}, view.title), element('p', { class: 'empty' }, 'The text has no market.')];
  const name = element('span', { title: market.address }, shortAddress(market.address));
  return [element('h1', {}, `${view.title} of `, name), ...view.ofMarket(shown, market, link.words).flat(Infinity).filter(isNode)];
}

// Gives the focus to what stands in the place of what had it, else to the table whose row was sought, else to the heading.
function placeFocus(key) {
  const named = key === null ? undefined : [...document.querySelectorAll('[data-key]')].find((node) => node.dataset.key === key);
  const target = named || frame.main.querySelector('[data-sought]') || frame.main.querySelector('h1');
  if (target === null) return;
  if (target.tagName === 'H1') target.tabIndex = -1;
  target.focus({ preventScroll: true });
}

// The name of what has the focus; null where it is nothing that a redrawn view has again.
function focusKey() {
  const holder = document.activeElement === null ? null : document.activeElement.closest('[data-key]');
  return holder === null ? null : holder.dataset.key;
}

// Whether the focus is in a part of the page that is drawn anew.
function isFocusDrawn() {
  const { activeElement } = document;
  return frame.main.contains(activeElement) || frame.tabs.contains(activeElement) || document.querySelector('.search').contains(activeElement);
}

// What a fragment asks for: its view and market, or what is wrong with it.
function soughtBy(link, views) {
  const { markets } = frame.shown.exchange;
  const view = views.find(({ name }) => name === link.view) || (link.view === '' ? views[0] : null);
  let wrong = null;
  if (link.isBroken) wrong = 'The page’s address has signs behind # that name no view.';
  else if (view === null) wrong = `There is no view ${link.view} of this text.`;
  else if (view.ofMarket && link.subject !== '' && !markets.has(link.subject)) wrong = `There is no market ${link.subject} in this text.`;
  return { view, wrong, market: marketOf(link, markets) };
}

/** Shows the view that the address of the page asks for. */
export function drawView() {
  if (frame.shown === null) return;
  const key = focusKey();
  const isDrawn = isFocusDrawn();
  const views = viewsOf(frame.shown);
  const link = readLink(window.location.hash);
  const { view, wrong, market } = soughtBy(link, views);
  frame.market = market === undefined ? '' : market.address;
  drawTabs(views, wrong === null ? view : null, market);
  frame.main.replaceChildren(...(wrong === null ? contentOf(view, market, link) : strayLink(wrong)));
  frame.main.dataset.view = wrong === null ? view.name : 'none';
  if (isDrawn) placeFocus(key);
}

/** Goes to the view of a number, from 0, where there is one; answers whether there is. */
export function goToView(number) {
  const view = frame.shown === null ? undefined : viewsOf(frame.shown)[number];
  if (view === undefined) return false;
  window.location.hash = linkTo(view.name, view.ofMarket ? frame.market : '');
  return true;
}
