// The search field: addresses, orders, rows and lines of the journals.

import { element } from './elements.js';
import { linkOfAddress, linkOfOrder, linkTo, nameOf, shortAddress } from './links.js';
import { personsOf } from './owners.js';
import { exactNumber } from './text.js';

const MOST = 24;

// Accounts and persons whose address has the text in it.
function foundAddresses(shown, text) {
  const found = [];
  for (const { address, what } of shown.exchange.accounts.values()) {
    if (found.length === MOST) break;
    if (address.includes(text) || what.includes(text)) found.push({ title: nameOf(shown, address), what, href: linkOfAddress(shown, address) });
  }
  for (const person of personsOf(shown.exchange).filter((one) => one.includes(text)).slice(0, 8)) {
    found.push({ title: nameOf(shown, person), what: 'owner, over all markets', href: linkTo('owners', person) });
    for (const market of shown.report.markets.keys()) {
      found.push({ title: nameOf(shown, person), what: `owner, rows on ${shortAddress(market)}`, href: linkTo('journal', market, { account: person }) });
    }
  }
  return found;
}

// The order of an id, and the row of a number.
function foundNumbers(shown, text) {
  if (!/^[0-9]{1,39}$/.test(text)) return [];
  const found = [];
  for (const market of shown.exchange.markets.values()) {
    const journal = shown.report.markets.get(market.address);
    if (journal !== undefined && journal.rows.includes(exactNumber(text))) {
      found.push({ title: `row ${text}`, what: `journal of ${shortAddress(market.address)}`, href: linkTo('journal', market.address, { row: text }) });
    }
    const href = linkOfOrder(shown, market, BigInt(text));
    if (href !== null) found.push({ title: `order ${text}`, what: shortAddress(market.address), href });
  }
  return found;
}

// Entries of journals whose lines have the text in them.
function foundLines(shown, text) {
  const { lines } = shown.report;
  const found = [];
  for (const [market, journal] of shown.report.markets) {
    const end = lines.starts[journal.first - 1 + journal.count];
    let place = lines.text.indexOf(text, lines.starts[journal.first - 1]);
    while (place >= 0 && place < end && found.length < MOST) {
      const number = lines.numberOf(place);
      const row = journal.rows[number - journal.first];
      found.push({ title: `row ${row}`, what: lines.at(number), href: linkTo('journal', market, { row }) });
      place = lines.text.indexOf(text, lines.starts[number]);
    }
  }
  return found;
}

/** What a text is found in, at most some dozens of places. */
export function search(shown, text) {
  if (text === '') return [];
  return [...foundAddresses(shown, text), ...foundNumbers(shown, text), ...foundLines(shown, text)].slice(0, 2 * MOST);
}

/** The search field with the list of what it finds; `shown` tells the report that is on the page. */
export function searchField(shown) {
  const list = element('ul', { class: 'found', hidden: true });
  const clear = () => { list.hidden = true; };
  const find = () => {
    const text = field.value.trim();
    const found = shown() === null ? [] : search(shown(), text);
    const link = ({ title, what, href }) => element('a', { href, click: clear }, title, ' ', element('span', {}, what));
    const items = found.map((place) => element('li', {}, link(place)));
    list.replaceChildren(...(items.length > 0 ? items : [element('li', {}, 'Nothing is found.')]));
    list.hidden = text === '';
  };
  const press = (event) => {
    const links = [...list.querySelectorAll('a')];
    const at = links.indexOf(document.activeElement);
    const step = { ArrowDown: 1, ArrowUp: -1 }[event.key];
    if (event.key === 'Escape') clear();
    else if (event.key === 'Enter' && at < 0 && links.length > 0) links[0].click();
    else if (step !== undefined) (links[at + step] || field).focus();
    else return;
    if (event.key !== 'Enter') event.preventDefault();
  };
  const field = element('input', {
    'type': 'search',
    'placeholder': 'Search: address, order, row, word',
    'aria-label': 'Search',
    'autocomplete': 'off',
    'input': find,
    'focus': find,
  });
  const node = element('div', { class: 'search', role: 'search', keydown: press }, field, list);
  node.addEventListener('focusout', (event) => { if (!node.contains(event.relatedTarget)) clear(); });
  return { node, field };
}
