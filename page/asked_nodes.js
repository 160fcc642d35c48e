// What a row of the script asked for, in words: who did what with which account.

import { amountNode, bareNode, numberNode, priceNode, sizeNode } from './amounts.js';
import { orderOfId } from './accounts.js';
import { element } from './elements.js';
import { addressNode, entryNode, orderNode } from './links.js';
import { isInTokens } from './units.js';

// What the legs of a swap are called, in their order.
const LEGS = ['first leg', 'second leg'];
const TYPES = { limit: null, ioc: 'immediate or cancel', post: 'post only' };

// Whether a budget says nothing: an ask's is not read.
function budgetNodes({ side, pc }, market) {
  return side === 'bid' ? [', at most ', bare(amountNode(pc, 'pc', market), market), ' including fees'] : [];
}

// An amount in a sentence: native amounts stand without lots.
function bare(node, market) { return isInTokens(market) ? node : bareNode(node); }

// What is bought or sold, and at which price.
function dealNodes(instruction, market) {
  const verb = instruction.side === 'bid' ? 'buys ' : 'sells ';
  return [verb, sizeNode(instruction.lots, market), ' at ', priceNode(instruction.price, market), budgetNodes(instruction, market)];
}

// A new order in words.
function newNodes(instruction, market) {
  const { type, latest } = instruction;
  return [dealNodes(instruction, market), TYPES[type] ? `, ${TYPES[type]}` : '', latest === undefined ? '' : [', until ', numberNode(latest)]];
}

// What a take buys or sells, and the least that it has to get.
function takeNodes(instruction, market) {
  const { minLots, minPc } = instruction;
  const least = [
    minLots > 0n ? [', at least ', sizeNode(minLots, market)] : [],
    minPc > 0n ? [', for at least ', bare(amountNode(minPc, 'pc', market), market)] : [],
  ];
  return [dealNodes(instruction, market), least];
}

// What an instruction does, in words behind its signer.
function deedNodes(shown, market, { instruction, named }) {
  const account = named.length === 0 ? 'no account' : addressNode(shown, named[0]);
  switch (instruction.name) {
    case 'new': return [newNodes(instruction, market), ', with ', account];
    case 'take': return ['takes: ', takeNodes(instruction, market)];
    case 'cancel': return ['cancels the ', orderNode(shown, market, orderOfId(instruction.id, instruction.side === 'bid')), ' of ', account];
    case 'cancelc': return ['cancels client id ', numberNode(instruction.client), ' of ', account];
    case 'cancels': return ['cancels client ids ', instruction.clients.map((client, at) => [at > 0 ? ', ' : '', numberNode(client)]), ' of ', account];
    case 'consume': return ['cranks up to ', numberNode(instruction.limit), ' events for ',
      named.length === 0 ? 'nobody' : named.map((one, at) => [at > 0 ? ', ' : '', addressNode(shown, one)])];
    case 'prune': return ['prunes up to ', numberNode(instruction.limit), ' orders of ', account];
    case 'settle': return ['settles ', account];
    case 'init': return ['opens ', account];
    case 'close': return ['closes ', account];
    case 'sweep': return ['sweeps the fees'];
    case 'disable': return ['disables the market'];
    case 'match': return ['asks for MatchOrders'];
    default: return ['asks for ', instruction.title];
  }
}

// What a leg of a swap does, in words.
function legNodes(market, { instruction }) {
  if (instruction === null) return 'data that is no instruction';
  return instruction.name === 'take' ? takeNodes(instruction, market) : ['asks for ', instruction.title];
}

/** What a row asked of a market, as a sentence; of a swap, which leg it is there, and where the other one is. */
export function askedNode(shown, market, asked) {
  const signer = [addressNode(shown, asked.signer), ' '];
  const told = (...nodes) => element('span', { class: 'asked' }, signer, nodes);
  if (asked.other !== null) {
    return told('swaps with ', entryNode(asked.other.market, asked.row), `, ${LEGS[asked.place]}: `, legNodes(market, asked));
  }
  return asked.instruction === null ? told('hands in data that is no instruction') : told(deedNodes(shown, market, asked));
}

/** What both legs of a swap row ask for, as one sentence; `marketOf` gives the market of an address. */
export function swapNode(shown, asked, marketOf) {
  const leg = (one) => [legNodes(marketOf(one.market), one), ' on ', addressNode(shown, one.market)];
  return element('span', { class: 'asked' }, addressNode(shown, asked.signer), ' swaps: ', leg(asked), '; ', leg(asked.other));
}

/** The wallets of a row by their roles, and the words of its instruction that the sentence leaves out. */
export function askedDetails(shown, asked, clock) {
  const { instruction, roles } = asked;
  const wallets = Object.entries(roles).filter(([, wallet]) => wallet !== '-' && wallet !== undefined);
  const pairs = wallets.map(([role, wallet]) => [`Wallet for ${role}`, addressNode(shown, wallet)]);
  if (instruction === null) return pairs;
  const words = [['Instruction', instruction.title]];
  if (instruction.self !== undefined) words.push(['Self trade', instruction.self]);
  if (instruction.client !== undefined && instruction.name === 'new') words.push(['Client id', numberNode(instruction.client)]);
  if (instruction.limit !== undefined && ['new', 'take'].includes(instruction.name)) words.push(['Match limit', numberNode(instruction.limit)]);
  if (instruction.latest !== undefined) words.push(['Clock', clock]);
  return [...words, ...pairs];
}
