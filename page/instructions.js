// Instructions: from the words of a row or from its bytes, each with its fields by name.

import { decodeBase64, longAt, numberAt, wordAt } from './bytes.js';

const SIDES = ['bid', 'ask'];
const SELF_TRADES = ['decrement', 'cancel', 'abort'];
const ORDER_TYPES = ['limit', 'ioc', 'post'];

// Instructions by their tag: name, title, and the fields of its words.
const INSTRUCTIONS_BY_TAG = {
  0: ['market', 'InitializeMarket', ''],
  2: ['match', 'MatchOrders', 'limit'],
  3: ['consume', 'ConsumeEvents', 'limit'],
  5: ['settle', 'SettleFunds', ''],
  7: ['disable', 'DisableMarket', ''],
  8: ['sweep', 'SweepFees', ''],
  10: ['new', 'NewOrderV3', 'side price lots pc self type client limit latest'],
  11: ['cancel', 'CancelOrderV2', 'side id'],
  12: ['cancelc', 'CancelOrderByClientIdV2', 'client'],
  13: ['take', 'SendTake', 'side price lots pc minLots minPc limit'],
  14: ['close', 'CloseOpenOrders', ''],
  15: ['init', 'InitOpenOrders', ''],
  16: ['prune', 'Prune', 'limit'],
  18: ['cancels', 'CancelOrdersByClientIds', ''],
};

const BY_NAME = new Map(Object.values(INSTRUCTIONS_BY_TAG).map(([name, title, fields]) => [name, { name, title, fields: fields.split(' ') }]));

// A word as a field's value: sides, rules and types stay words, all others are numbers; null where it is none.
function valueOfWord(field, word) {
  const words = { side: SIDES, self: SELF_TRADES, type: ORDER_TYPES }[field];
  if (words !== undefined) return words.includes(word) ? word : null;
  return /^[0-9]{1,39}$/.test(word) ? BigInt(word) : null;
}

// The instruction of the words of a do row; null where they are none.
function instructionOfWords(text) {
  const [name, ...words] = text.split(' ');
  const form = BY_NAME.get(name);
  if (form === undefined) return null;
  const clients = name === 'cancels' ? words.map((word) => valueOfWord('client', word)) : [];
  const instruction = { name, title: form.title, clients };
  if (name === 'cancels') return clients.includes(null) ? null : instruction;
  for (const [place, field] of form.fields.entries()) {
    if (field === '' || words[place] === undefined) continue;
    instruction[field] = valueOfWord(field, words[place]);
    if (instruction[field] === null) return null;
  }
  return instruction;
}

// What both deals have in front of their bytes: side, price, lots and the most native pc.
function dealOf(bytes) {
  return { side: SIDES[wordAt(bytes, 5)], price: longAt(bytes, 9), lots: longAt(bytes, 17), pc: longAt(bytes, 25) };
}

// The bytes of a new order's body by field.
function newOrder(bytes) {
  return {
    ...dealOf(bytes),
    self: SELF_TRADES[wordAt(bytes, 33)],
    type: ORDER_TYPES[wordAt(bytes, 37)],
    client: longAt(bytes, 41),
    limit: numberAt(bytes, 49, 2),
    latest: bytes.length > 51 ? BigInt.asIntN(64, longAt(bytes, 51)) : undefined,
  };
}

// The bytes of a take's body by field.
function takeBody(bytes) {
  return { ...dealOf(bytes), minLots: longAt(bytes, 33), minPc: longAt(bytes, 41), limit: numberAt(bytes, 49, 2) };
}

// The bodies of instructions that have one, with the lengths of their data.
const BODIES = {
  2: [[7], (bytes) => ({ limit: numberAt(bytes, 5, 2) })],
  3: [[7], (bytes) => ({ limit: numberAt(bytes, 5, 2) })],
  10: [[51, 59], newOrder],
  11: [[25], (bytes) => ({ side: SIDES[wordAt(bytes, 5)], id: numberAt(bytes, 9, 16) })],
  12: [[13], (bytes) => ({ client: longAt(bytes, 5) })],
  13: [[51], takeBody],
  16: [[7], (bytes) => ({ limit: numberAt(bytes, 5, 2) })],
  18: [[13, 21, 29, 37, 45, 53, 61, 69], (bytes) => ({ clients: Array.from({ length: (bytes.length - 5) / 8 }, (_, at) => longAt(bytes, 5 + 8 * at)) })],
};

// The instruction of data in base64; null where it is none.
function instructionOfData(text) {
  const bytes = decodeBase64(text);
  if (bytes === null || bytes.length < 5 || bytes[0] !== 0) return null;
  const tag = wordAt(bytes, 1);
  const form = INSTRUCTIONS_BY_TAG[tag];
  if (form === undefined) return null;
  const [name, title] = form;
  const body = BODIES[tag];
  if (body === undefined) return { name, title, clients: [] };
  return body[0].includes(bytes.length) ? { name, title, clients: [], ...body[1](bytes) } : null;
}

/** The name of the instruction that data in base64 begins as; `none` where it is none. */
export function nameOfData(text) {
  const bytes = decodeBase64(text.slice(0, 8));
  const form = bytes === null || bytes.length < 5 || bytes[0] !== 0 ? undefined : INSTRUCTIONS_BY_TAG[wordAt(bytes, 1)];
  return form === undefined ? 'none' : form[0];
}

// The roles of a row's wallets, in the order of their fields.
const ROLES = ['coin', 'pc', 'discount', 'referrer'];

/** The words of a do row that mean what data in base64 means, ? for one of no list; null where it is no instruction. */
export function wordsOfData(text) {
  const instruction = instructionOfData(text);
  if (instruction === null) return null;
  const fields = BY_NAME.get(instruction.name).fields.filter((field) => field !== '' && (field !== 'latest' || instruction.latest !== undefined));
  return [instruction.name, ...fields.map((field) => (instruction[field] === undefined ? '?' : instruction[field])), ...instruction.clients].join(' ');
}

/** The two legs of a swap row's fields, each as a row of its own. */
export function legsOf(fields) {
  return [3, 7].map((at) => {
    const [market, coin, pc, data = ''] = fields.slice(at, at + 4);
    return { market, named: [], roles: { coin, pc, discount: '-', referrer: '-' }, instruction: instructionOfData(data) };
  });
}

// What a swap row asks of a market: the leg there, and the other one; `place` is 0 for the first leg and 1 for the second.
function askedBySwap(fields, row, market) {
  const [, lane, signer] = fields;
  const legs = legsOf(fields).map((leg, place) => ({ row, lane, signer, place, ...leg }));
  const place = Number(legs[0].market !== market && legs[1].market === market);
  return { ...legs[place], other: legs[1 - place] };
}

/**
 * What an instruction row asks of a market: its lane, signer, accounts, wallets by role, instruction, and of a swap the `other` leg; null
 * where it is no such row.
 */
export function askedBy(script, row, market) {
  const fields = script.fieldsOf(row);
  if (fields[0] === 'swap') return askedBySwap(fields, row, market);
  if (fields[0] !== 'ix' && fields[0] !== 'do') return null;
  const [kind, lane, on, signer, named = '-', coin, pc, discount, referrer, words = ''] = fields;
  const wallets = [coin, pc, discount, referrer];
  return {
    row,
    lane,
    market: on,
    signer,
    named: named === '-' ? [] : named.split(' '),
    roles: Object.fromEntries(ROLES.map((role, at) => [role, wallets[at]])),
    instruction: kind === 'do' ? instructionOfWords(words) : instructionOfData(words),
    other: null,
  };
}
