// The rows that the small form makes: of each what it asks, what stands there at first, and the row's text.

import { restingOrders, signersOf, walletsOf } from './declared.js';
import { doRow } from './deeds.js';
import { budgetOf, marketData, takeData, WORD_LISTS } from './forms.js';

// What a field of the form is: its name, its label, the words that are offered, whether only these may stand, and what stands at first.
function asks(name, label, { offers = () => [], isChoice = false, start = () => '' } = {}) { return { name, label, offers, isChoice, start }; }

// A field in which one of some words stands.
function oneOf(name, label, words) { return asks(name, label, { offers: () => words, isChoice: true, start: () => words[0] }); }

// A field for a number.
function count(name, label, start) { return asks(name, label, { start: typeof start === 'function' ? start : () => start }); }

// A field that is chosen among what is there; the first stands at first.
function among(name, label, offers) { return asks(name, label, { offers, start: (known, values) => offers(known, values)[0] || '' }); }

const marketsOf = (known) => [...known.markets.keys()];
const mintsOf = (known) => [...known.mints];

// A market's accounts, those that are open first.
function accountsIn(known, market) {
  const found = [...known.accounts].filter(([, account]) => account.market === market);
  return found.sort(([, one], [, other]) => Number(one.owner === null) - Number(other.owner === null)).map(([address]) => address);
}

// Who owns the account of a form, where it is open; else the first signer.
function ownerOf(known, { account }) {
  const found = known.accounts.get(account);
  return (found !== undefined && found.owner) || signersOf(known)[0] || '';
}

// The wallets for a token of a form's market, the signer's first.
function walletsFor(token) {
  return (known, { market, signer }) => {
    const found = known.markets.get(market);
    return found === undefined ? ['-'] : [...walletsOf(known, found[token], signer), '-'];
  };
}

// The market of a form in the last report.
function shownMarket(known, { market }) { return known.exchange === null ? undefined : known.exchange.markets.get(market); }

// The best price that a deal could meet.
function bestPrice(known, values) {
  const market = shownMarket(known, values);
  const order = market === undefined ? undefined : (values.side === 'bid' ? market.asks : market.bids).orders[0];
  return order === undefined ? '50' : String(order.price);
}

// What a bid costs at its price, with the highest fee; an ask's words need a number above 0.
function budgetFor(known, values) {
  const market = shownMarket(known, values);
  if (values.side !== 'bid' || market === undefined || !/^[0-9]+$/.test(values.price) || !/^[0-9]+$/.test(values.lots)) return '1';
  return String(budgetOf(BigInt(values.price), BigInt(values.lots), market));
}

// A client id that no resting order has.
function nextClient(known, values) {
  const used = restingOrders(known, values.market, '-').map(({ client }) => client);
  return String(used.reduce((most, client) => (client > most ? client : most), 0n) + 1n);
}

const MARKET = among('market', 'Market', marketsOf);
const ACCOUNT = among('account', 'Account', (known, { market }) => accountsIn(known, market));
const SIGNER = asks('signer', 'Signer', { offers: signersOf, start: ownerOf });
const ANYBODY = among('signer', 'Signer', signersOf);
const LANE = asks('lane', 'Lane', { start: (known, { signer }) => known.laneOf(signer) });
const DEAL_FIELDS = [oneOf('side', 'Side', WORD_LISTS.side), count('price', 'Price, pc lots a coin lot', bestPrice), count('lots', 'Coin lots', '1')];
const PAYER = asks('wallet', 'Wallet that pays', {
  offers: (known, values) => walletsFor(values.side === 'bid' ? 'pc' : 'coin')(known, values),
  start: (known, values) => walletsFor(values.side === 'bid' ? 'pc' : 'coin')(known, values)[0],
});
const BUDGET = count('pc', 'At most, native pc with fee', budgetFor);
const LIMIT_FIELD = count('limit', 'Orders it may meet', '10');
const BOTH = [among('coin', 'Coin wallet', walletsFor('coin')), among('pc', 'Pc wallet', walletsFor('pc'))];

// The words of an instruction: its name, and the values of fields.
function wordsFrom(name, values, fields) { return [name, ...fields.map((one) => values[one])].join(' '); }

// A do row of a form's values.
function actRow(values, words, wallets = {}) {
  return doRow({ lane: values.lane, market: values.market, signer: values.signer, accounts: values.account || '-', ...wallets, words });
}

// The fields of a take but for who signs, its wallets and its lane, and those of them that are its words.
const TAKE_FIELDS = [MARKET, ...DEAL_FIELDS, count('most', 'At most, native pc with fee', budgetFor), count('leastLots', 'Least lots', '0'),
  count('leastPc', 'Least native pc', '0'), LIMIT_FIELD];
const TAKE_WORDS = ['side', 'price', 'lots', 'most', 'leastLots', 'leastPc', 'limit'];

// What stands in the fields of a swap's second leg, by the names that the first one's have.
function ofSecond(values) {
  const second = Object.entries(values).filter(([name]) => name.endsWith('2'));
  return { ...values, ...Object.fromEntries(second.map(([name, value]) => [name.slice(0, -1), value])) };
}

// A field of a swap's first leg, and one of the second, which hangs on the fields of its own leg.
function firstField(one) { return { ...one, label: `1. ${one.label}` }; }
function secondField({ name, label, offers, isChoice, start }) {
  return {
    name: `${name}2`, label: `2. ${label}`, isChoice, offers: (known, values) => offers(known, ofSecond(values)),
    start: (known, values) => start(known, ofSecond(values)),
  };
}

// The wallets for a token of a swap's second leg: none that the first leg names.
function otherWallets(token) {
  return (known, values) => walletsFor(token)(known, ofSecond(values)).filter((wallet) => wallet === '-' || ![values.coin, values.pc].includes(wallet));
}

const SECOND_FIELDS = [
  among('market2', '2. Market', (known, { market }) => marketsOf(known).filter((one) => one !== market)),
  oneOf('side2', '2. Side', ['ask', 'bid']), ...TAKE_FIELDS.slice(2).map(secondField),
  among('coin2', '2. Coin wallet', otherWallets('coin')), among('pc2', '2. Pc wallet', otherWallets('pc')),
];

// The row of a swap: two takes on two markets; null where one of them cannot be made.
function rowOfSwap(values) {
  const legs = [values, ofSecond(values)].map((leg) => [leg.market, leg.coin, leg.pc, takeData(wordsFrom('take', leg, TAKE_WORDS))]);
  return values.market2 === '' || legs.flat().includes(null) ? null : ['swap', values.lane, values.signer, ...legs.flat()].join(',');
}

// The order that is cancelled, by its words.
const ORDER = asks('order', 'Order', {
  offers: (known, { market, account }) => restingOrders(known, market, account || '-').map(({ isBid, id }) => `${isBid ? 'bid' : 'ask'} ${id}`),
  isChoice: true,
  start: (known, { market, account }) => restingOrders(known, market, account || '-').map(({ isBid, id }) => `${isBid ? 'bid' : 'ask'} ${id}`)[0] || '',
});

/** The rows, in the order in which they are offered; one that cannot be made yet is null, or throws. `isSetup` rows stand before the first instruction. */
export const FORM_ROWS = {
  'an order': {
    fields: [MARKET, ACCOUNT, ...DEAL_FIELDS, oneOf('type', 'Type', WORD_LISTS.type), BUDGET, oneOf('self', 'Self-trade', WORD_LISTS.self),
      count('client', 'Client id', nextClient), LIMIT_FIELD, SIGNER, PAYER, LANE],
    row: (values) => {
      const words = wordsFrom('new', values, ['side', 'price', 'lots', 'pc', 'self', 'type', 'client', 'limit']);
      return actRow(values, words, { [values.side === 'bid' ? 'pc' : 'coin']: values.wallet });
    },
  },
  'a take': {
    fields: [...TAKE_FIELDS, ANYBODY, ...BOTH, LANE],
    row: (values) => actRow(values, wordsFrom('take', values, TAKE_WORDS), { coin: values.coin, pc: values.pc }),
  },
  'a swap': { fields: [ANYBODY, ...[...TAKE_FIELDS, ...BOTH].map(firstField), ...SECOND_FIELDS, LANE], row: rowOfSwap },
  'a cancel': {
    fields: [MARKET, ACCOUNT, ORDER, SIGNER, LANE],
    row: (values) => (values.order === '' ? null : actRow(values, `cancel ${values.order}`)),
  },
  'a settling': {
    fields: [MARKET, ACCOUNT, SIGNER, ...BOTH, LANE],
    row: (values) => actRow(values, 'settle', { coin: values.coin, pc: values.pc }),
  },
  'a crank': {
    fields: [MARKET, asks('account', 'Accounts', { start: (known, { market }) => accountsIn(known, market).slice(0, 16).join(' ') }),
      count('limit', 'Events at most', '10'), ANYBODY, LANE],
    row: (values) => actRow(values, `consume ${values.limit}`),
  },
  'an opening': { fields: [MARKET, ACCOUNT, SIGNER, LANE], row: (values) => actRow(values, 'init') },
  'a market': {
    isSetup: true,
    fields: [count('address', 'Address', 'm2'), among('coin', 'Coin', mintsOf),
      asks('pcMint', 'Pc', { offers: mintsOf, start: (known, { coin }) => mintsOf(known).find((mint) => mint !== coin) || '' }),
      asks('authority', 'Authority', { offers: signersOf, start: () => 'admin' }), count('coinLot', 'Coin lot, native', '100'),
      count('pcLot', 'Pc lot, native', '10'), count('bids', 'Bid nodes', '909'), count('asks', 'Ask nodes', '909'), count('events', 'Events', '2978'),
      count('feeRate', 'Fee rate', '0'), count('dust', 'Dust', '1')],
    row: (values) => {
      const [coinLot, pcLot, feeRate, dust] = [values.coinLot, values.pcLot, values.feeRate, values.dust].map((word) => BigInt(word));
      const data = marketData({ coinLot, pcLot, feeRate, dust });
      return ['market', values.address, values.coin, values.pcMint, values.authority, values.bids, values.asks, values.events, data].join(',');
    },
  },
  'an open-orders account': {
    isSetup: true,
    fields: [MARKET, count('address', 'Address', 'account')],
    row: ({ market, address }) => `orders,${market},${address}`,
  },
  'a wallet': {
    isSetup: true,
    fields: [count('address', 'Address', 'wallet'), among('mint', 'Mint', mintsOf), among('owner', 'Owner', signersOf),
      count('amount', 'Native amount', '1000000')],
    row: ({ address, mint, owner, amount }) => `wallet,${address},${mint},${owner},${amount}`,
  },
  'a mint': {
    isSetup: true,
    fields: [count('address', 'Address', 'mint'), count('decimals', 'Decimals', '6')],
    row: ({ address, decimals }) => `mint,${address},${decimals}`,
  },
};
