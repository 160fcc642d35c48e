// All orders of a market that the texts tell, and the life of one: placed, filled, cancelled, out, row by row.

import { amountNode, bareNode, counted, numberNode, priceNode, sizeNode } from './amounts.js';
import { choice, element } from './elements.js';
import { addressNode, linkTo, orderNode, rowNode, shortAddress } from './links.js';
import { livesOf } from './lives.js';
import { facts, notice, section, tableWithDetails } from './parts.js';
import { averageText, priceText, priceUnit, sizeUnit } from './units.js';

const STATES = ['rests', 'out pending', 'over', 'gone'];

// What each state means.
const STATE_TEXTS = {
  'rests': 'It rests on the book.',
  'out pending': 'It left the book; its slot is taken until a crank consumes its out.',
  'over': 'It left the book, and a crank freed its slot.',
  'gone': 'It is neither on the book nor in the event queue.',
};

// An order of somebody, as a link to its life.
function counterparty(shown, market, order) {
  if (order.isTake) return ['a take of ', addressNode(shown, order.signer)];
  return ['the ', orderNode(shown, market, order), ' of ', addressNode(shown, order.account)];
}

// What a new order filled at once, maker by maker.
function takerNodes(shown, market, step) {
  const fill = ({ lots, price, maker }) => element('li', {}, sizeNode(lots, market), ` at ${priceText(price, market)} of `, counterparty(shown, market, maker));
  return ['filled as taker: ', sizeNode(step.lots, market), ` at ${averageText(step.pc, step.lots, market)} on average, fee `,
    amountNode(step.fee, 'pc', market), element('ul', { class: 'plain' }, step.fills.map(fill))];
}

// A step of a life in words.
function stepNode(shown, market, life, step) {
  const size = () => sizeNode(step.lots, market);
  const at = (price) => ` at ${priceText(price, market)}`;
  switch (step.what) {
    case 'placed': return ['placed: ', size(), at(life.price), life.signer === null ? '' : [' by ', addressNode(shown, life.signer)]];
    case 'filled as taker': return takerNodes(shown, market, step);
    case 'filled as maker': return ['filled as maker: ', size(), at(step.price), ', rebate ', amountNode(step.rebate, 'pc', market), ', by ',
      counterparty(shown, market, step.other)];
    case 'rests': return ['rests with ', size()];
    case 'used up': return ['nothing is left to rest'];
    case 'the rest did not rest': return [size(), ' did not rest'];
    default: return step.isCrank ? [step.what] : [step.what, ': ', size()];
  }
}

// The steps of a life, each with its row.
function stepList(shown, market, life) {
  const steps = life.steps.map((step) => element('li', { 'data-name': 'step' }, rowNode(market.address, step.row), ' ', stepNode(shown, market, life, step)));
  if (life.row === null) steps.unshift(element('li', { 'data-name': 'step' }, 'it was there before the first row'));
  else if (life.steps.length === 0) {
    const filled = life.filled === null ? '' : [': filled ', sizeNode(life.filled, market), ' at once'];
    steps.push(element('li', { 'data-name': 'step' }, rowNode(market.address, life.row), ' placed', filled));
  }
  return element('ol', { class: 'life' }, steps);
}

// The life of one order.
function lifeSection(shown, market, life) {
  const title = `The ${life.isBid ? 'bid' : 'ask'} at ${priceText(life.price, market)}, sequence number ${life.sequence}`;
  const rests = life.state === 'rests' ? [' ', sizeNode(life.left, market), ' is left.'] : '';
  return section(title,
    facts([
      ['State', [STATE_TEXTS[life.state], rests]],
      ['Account', life.account === null ? 'not told' : addressNode(shown, life.account)],
      ['Slot', life.slot],
      ['Client id', life.client === undefined ? 'not told' : numberNode(life.client)],
      ['Filled', life.filled === null ? 'not told' : sizeNode(life.filled, market)],
      ['Rebates', life.rebates === undefined ? 'not told' : amountNode(life.rebates, 'pc', market)],
      ['Order id', element('code', {}, String(life.id))],
    ]),
    stepList(shown, market, life));
}

// One order's cells.
function lifeRow(shown, market, life) {
  return {
    name: `life ${life.id}`,
    mark: life.isBid ? 'bid' : 'ask',
    cells: [
      life.isBid ? 'bid' : 'ask',
      element('a', { href: linkTo('orders', market.address, { id: life.id }) }, numberNode(life.sequence)),
      bareNode(priceNode(life.price, market)),
      life.asked === null ? '' : bareNode(sizeNode(life.asked, market)),
      life.filled === null ? '' : bareNode(sizeNode(life.filled, market)),
      bareNode(sizeNode(life.left, market)),
      life.state,
      life.row === null ? 'before' : rowNode(market.address, life.row),
      life.account === null ? '' : addressNode(shown, life.account),
    ],
  };
}

// What is not known of the lives, and why.
function shortfall(shown, market) {
  const replay = shown.replay(market);
  if (replay === null) {
    return 'Without the script the page does not know what was placed by whom, which orders a taker met and which were cancelled: open it too.';
  }
  if (replay.why !== null) return `The rows of the script do not lead where the report does: ${replay.why}. So only what the report tells is shown.`;
  return null;
}

// The orders that pass the filters.
function soughtLives(lives, words) {
  const isSought = (name, value) => words[name] === undefined || words[name] === value;
  return lives.filter(({ state, account }) => isSought('state', state) && isSought('account', account));
}

/** The view of a market's orders; `words.id` is the order whose life is told, `words.state` and `words.account` are filters. */
export function ordersView(shown, market, words) {
  const all = livesOf(shown, market);
  const lives = soughtLives(all, words);
  const life = words.id === undefined ? undefined : all.find(({ id }) => String(id) === words.id);
  const go = (name) => (value) => { window.location.hash = linkTo('orders', market.address, { ...words, id: null, [name]: value }); };
  const accounts = [...new Set(all.map(({ account }) => account))].filter((account) => account !== null).sort();
  const why = shortfall(shown, market);
  const { table, node } = tableWithDetails({
    label: `Orders of ${market.address}`,
    columns: [
      { title: 'Side', size: '3rem' },
      { title: 'Sequence number', isNumber: true, size: '6rem' },
      { title: `Price (${priceUnit(market)})`, short: 'Price', isNumber: true, size: '1.3fr' },
      { title: `Size (${sizeUnit(market)})`, short: 'Size', isNumber: true },
      { title: 'Filled', isNumber: true },
      { title: 'Left', isNumber: true },
      { title: 'State', isWide: true, size: '6.5rem' },
      { title: 'Placed', size: '5rem' },
      { title: 'Account', isWide: true, size: '1.2fr' },
    ],
    count: lives.length,
    least: 780,
    empty: 'No order passes the filters.',
    rowAt: (at) => lifeRow(shown, market, lives[at]),
  });
  if (life !== undefined) table.chosen = lives.indexOf(life);
  return [
    words.id !== undefined && life === undefined ? notice(`There is no order ${words.id} in this text.`) : null,
    why === null ? null : element('p', { 'class': 'hint', 'data-name': 'shortfall' }, why),
    life === undefined ? null : lifeSection(shown, market, life),
    section(`${counted(lives.length, 'order')} of ${counted(all.length, 'order')}`,
      element('div', { class: 'filters' },
        choice('State', [['', 'all'], ...STATES.map((state) => [state, state])], words.state || '', go('state')),
        choice('Account', [['', 'all'], ...accounts.map((account) => [account, shortAddress(account)])], words.account || '', go('account'))),
      node),
  ];
}
