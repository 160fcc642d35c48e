// Any account's bytes by field, named as docs/FORMATS.md names them.

import { choice, element } from './elements.js';
import { addressNode, linkTo, nameOf, shortAddress } from './links.js';
import { fieldsOf } from './layouts.js';
import { addressFacts, facts, notice, section, seekRow, tableWithDetails } from './parts.js';

// The bytes of a field, those of a long one shortened in the middle.
function shortHex(hex) {
  return hex.length > 72 ? `${hex.slice(0, 48)}…${hex.slice(-16)}` : hex;
}

// The number of the field that holds a place of the account; -1 where none does.
function fieldOfPlace(fields, place) {
  for (let at = 0; at < fields.count; at += 1) {
    const field = fields.at(at);
    if (place >= field.place && place < field.place + field.length) return at;
  }
  return -1;
}

// The table of an account's fields.
function fieldTable(shown, account, fields) {
  return tableWithDetails({
    label: `Fields of ${account.address}`,
    columns: [
      { title: 'Place', isNumber: true, size: '5rem' },
      { title: 'Length', isNumber: true, size: '4rem' },
      { title: 'Field', size: 'minmax(14rem, 1fr)', isWide: true },
      { title: 'Value', size: '1.4fr', isWide: true, narrowLines: 2 },
      { title: 'Bytes', size: '1.6fr', isWide: true, narrowLines: 2 },
    ],
    count: fields.count,
    linkOf: (at) => linkTo('bytes', account.address, { place: fields.at(at).place }),
    rowAt: (at) => {
      const field = fields.at(at);
      return {
        name: `field ${field.name}`,
        cells: [
          field.place,
          field.length,
          field.name,
          field.address === null ? element('span', { 'data-name': field.name }, field.text) : addressNode(shown, field.address),
          element('code', {}, shortHex(field.hex)),
        ],
        details: field.address === null ? [] : addressFacts(field.address),
      };
    },
  });
}

// How an account stands in the choice among all.
function accountOption({ address, market, part, what }) {
  return [address, market === null ? `${shortAddress(address)} (${what})` : `${shortAddress(market)}’s ${part}`];
}

/** The view of one account's bytes; `words.place` is a place of the account, whose field is chosen. */
export function bytesView(shown, subject, words) {
  const { accounts } = shown.exchange;
  if (accounts.size === 0) return [element('p', { class: 'empty' }, 'The text has no accounts.')];
  const account = accounts.get(subject === '' ? accounts.keys().next().value : subject);
  const options = [...accounts.values()].map(accountOption);
  const go = (address) => { window.location.hash = linkTo('bytes', address); };
  if (account === undefined) {
    return [notice(`There is no account ${subject} in this text.`), choice('Account', [['', 'choose one'], ...options], '', go)];
  }
  const fields = fieldsOf(account.kind, account.bytes);
  const table = fieldTable(shown, account, fields);
  const told = words.place === undefined ? null : seekRow(table, fieldOfPlace(fields, Number(words.place)), `place ${words.place}`);
  return [
    told,
    section(nameOf(shown, account.address),
      element('div', { class: 'filters' }, choice('Account', options, account.address, go)),
      facts([
        ...addressFacts(account.address),
        ['Is', account.what],
        ['Layout', account.kind],
        ['Length', `${account.bytes.length} bytes`],
        ['Line of the text', account.line],
      ]),
      table.node),
  ];
}
