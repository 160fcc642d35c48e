// What stands at a place of a row: the row's fields by name, which of them it is, what may stand there, and the words that are offered.

import { wordsOfData } from '../page/instructions.js';
import { restingOrders, signersOf, walletsOf } from './declared.js';
import { budgetOf, marketData, ROW_FORMS, takeData, WORD_FORMS, WORD_LISTS, WORD_TITLES } from './forms.js';

const WORDS_FIELD = 9;
const SECOND_LEG = 7;
const MOST_OFFERS = 12;

// What a row names at a field: its market, its signer, its first account, and the wallets that may not be named again.
function namedAt(fields, at) {
  if (fields[0] === 'orders') return { market: fields[1], account: '-', used: [] };
  if (fields[0] !== 'swap') return { market: fields[2], signer: fields[3], account: (fields[4] || '-').split(' ')[0], used: [] };
  const leg = at < SECOND_LEG ? 3 : SECOND_LEG;
  const used = [4, 5, 8, 9].filter((place) => place !== at).map((place) => fields[place]);
  return { market: fields[leg], signer: fields[2], account: '-', used };
}

// The piece of a line around a column between separators, as its place and text.
function pieceAt(line, column, separator, least = 0) {
  const from = Math.max(least, line.lastIndexOf(separator, column - 1) + 1);
  let to = line.indexOf(separator, column);
  if (to < 0) to = line.length;
  return { from, to: Math.max(from, to), text: line.slice(from, Math.max(from, to)) };
}

// Words of a list as offers.
function offered(words, title = () => '') { return [...words].map((word) => ({ word, title: title(word) })); }

// The wallets of a role of a row.
function walletOffers(known, { signer, used }, mint) {
  const dash = { word: '-', title: 'none' };
  if (mint === undefined) return [dash];
  const wallets = walletsOf(known, mint, signer).filter((wallet) => !used.includes(wallet));
  return [...offered(wallets, (wallet) => `of ${known.wallets.get(wallet).owner}`), dash];
}

// The best orders of a row's market, as far as the last report has them, each as something makes it an offer.
function bestOffers(known, { market }, make) {
  const found = known.exchange === null ? undefined : known.exchange.markets.get(market);
  return found === undefined ? [] : [found.bids.orders[0], found.asks.orders[0]].filter((order) => order !== undefined).map((order) => make(order, found));
}

// The best prices of a row's market.
function priceOffers(known, named) {
  return bestOffers(known, named, ({ isBid, price }) => ({ word: String(price), title: `best ${isBid ? 'bid' : 'ask'}` }));
}

// The data of a leg: what its words mean where words are typed, a take of a lot at each best price, and the words of what stands there.
function takeOffers(known, named, text) {
  const words = wordsOfData(text);
  const takes = bestOffers(known, named, ({ isBid, price }, market) => (isBid ? `take ask ${price} 1 1 1 0 10`
    : `take bid ${price} 1 ${budgetOf(price, 1n, market)} 1 0 10`));
  const made = [...(takeData(text) === null ? [] : [text]), ...takes].map((one) => ({ word: takeData(one), title: 'this take in base64', text: one }));
  return words !== null && takeData(words) !== null ? [...made, { word: words, title: 'the take in words, to change it', text: 'as words' }] : made;
}

// The orders of a row's account by a word of each.
function orderOffers(known, { market, account }, word) {
  return restingOrders(known, market, account).map((order) => ({
    word: String(word(order)), title: `${order.isBid ? 'bid' : 'ask'} of ${order.lots} at ${order.price}`,
  }));
}

// What is offered for a kind of field at a place of a row.
function offersOf(kind, fields, known, at) {
  const named = namedAt(fields, at);
  const market = known.markets.get(named.market) || {};
  switch (kind) {
    case 'mint': return offered(known.mints);
    case 'market': return offered(known.markets.keys());
    case 'signer': return offered(signersOf(known));
    case 'accounts': return [...offered([...known.accounts].filter(([, account]) => account.market === named.market).map(([address]) => address)),
      { word: '-', title: 'none' }];
    case 'coin': return walletOffers(known, named, market.coin);
    case 'pc': return walletOffers(known, named, market.pc);
    case 'discount': return [...known.discounts].flatMap((mint) => walletOffers(known, named, mint).slice(0, -1)).concat({ word: '-', title: 'none' });
    case 'lane': return offered(['0', '1', '2', '3']);
    case 'do': return offered(Object.keys(WORD_FORMS), (word) => WORD_TITLES[word]);
    case 'price': return priceOffers(known, named);
    case 'order': return orderOffers(known, named, ({ id }) => id);
    case 'client': return orderOffers(known, named, ({ client }) => client);
    case 'take': return takeOffers(known, named, fields[at]);
    case 'bytes': return [];
    case 'data': return [[100n, 10n], [1n, 1n]].map(([coinLot, pcLot]) => ({ word: marketData({ coinLot, pcLot }), title: `lots of ${coinLot} and ${pcLot}` }));
    default: return kind === null ? [] : offered(WORD_LISTS[kind]);
  }
}

// Offers that go on from what is typed first, then the others.
function sortedOffers(offers, typed) {
  const isFit = ({ word }) => typed !== '' && word.startsWith(typed);
  return [...offers.filter(isFit), ...offers.filter((offer) => !isFit(offer))].slice(0, MOST_OFFERS);
}

// What may stand in a field; where instruction's bytes stand there, what they say.
function saysOf(field, text) {
  const words = ['take', 'bytes'].includes(field.offers) ? wordsOfData(text) : null;
  return words === null ? field.says : `${words}, in base64`;
}

// A hint of named fields, of which one is at the place.
function hintOf(names, now, piece, field, offers, typed) {
  const says = field === undefined ? 'There is no further field in such a row.' : saysOf(field, piece.text);
  return { names, now, says, piece, offers: sortedOffers(offers, typed) };
}

// The hint at the first field of a row.
function kindHint(piece, typed) {
  const field = { says: 'The kind of the row.' };
  return hintOf(['Row'], 0, piece, field, offered(Object.keys(ROW_FORMS)), typed);
}

// The hint at a word of an instruction.
function wordHint(line, column, start, fields, known) {
  const piece = pieceAt(line, column, ' ', start);
  const typed = line.slice(piece.from, column);
  const words = line.slice(start).split(' ');
  const at = line.slice(start, column).split(' ').length - 1;
  const form = Object.hasOwn(WORD_FORMS, words[0]) ? WORD_FORMS[words[0]] : null;
  if (at === 0) {
    const title = form === null ? 'The instruction.' : `${WORD_TITLES[words[0]]}.`;
    return hintOf([words[0] || 'Instruction', ...(form || []).map(({ name }) => name)], 0, piece, { says: title }, offersOf('do', fields, known, WORDS_FIELD), typed);
  }
  if (form === null) return { names: [words[0]], now: 0, says: 'No instruction is called so.', piece, offers: [] };
  const field = form[at - 1];
  return hintOf([words[0], ...form.map(({ name }) => name)], at, piece, field, field === undefined ? [] : offersOf(field.offers, fields, known, WORDS_FIELD), typed);
}

/** What stands at a column of a line of a script; null where the line is empty and none of its words begun. */
export function hintAt(line, column, known) {
  const fields = line.split(',');
  const at = line.slice(0, column).split(',').length - 1;
  const piece = pieceAt(line, column, ',');
  if (at === 0) return kindHint(piece, line.slice(0, column));
  const form = Object.hasOwn(ROW_FORMS, fields[0]) ? ROW_FORMS[fields[0]] : null;
  if (form === null) return { names: [fields[0]], now: 0, says: 'No row begins so.', piece, offers: [] };
  if (fields[0] === 'do' && at === WORDS_FIELD) return wordHint(line, column, piece.from, fields, known);
  const field = form[at - 1];
  const own = field !== undefined && field.offers === 'accounts' ? pieceAt(line.slice(0, piece.to), column, ' ', piece.from) : piece;
  const offers = field === undefined ? [] : offersOf(field.offers, fields, known, at);
  return hintOf([fields[0], ...form.map(({ name }) => name)], at, own, field, offers, line.slice(own.from, column));
}
