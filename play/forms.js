// The fields of a script's rows and the words of its instructions, as docs/FORMATS.md has them: what each is called, what may stand there,
// and of which kind the words are that the page offers.

const NEW_ADDRESS = 'a new label: 1 to 24 of a to z, 0 to 9 and _, or 0x and 64 digits';
const NATIVE = 'a native amount, below 2^64';

// A field: its name, what may stand there, and the kind of what is offered.
function field(name, says, offers = null) { return { name, says, offers }; }

const ROLE_FIELDS = [
  field('Coin wallet', 'the wallet that pays or gets coin, or -', 'coin'),
  field('Pc wallet', 'the wallet that pays or gets pc, or -', 'pc'),
  field('Discount wallet', 'a wallet of SRM or MSRM, for a lower fee, or -', 'discount'),
  field('Referrer wallet', 'a pc wallet that gets the referrer’s part, or -', 'pc'),
];

const LANE_FIELD = field('Lane', '0 to 15; rows of one lane keep their order under run', 'lane');

const INSTRUCTION_FIELDS = [
  LANE_FIELD,
  field('Market', 'a market that a row above declares', 'market'),
  field('Signer', 'who signs: the owner of the account and of the wallets that pay', 'signer'),
  field('Accounts', 'open-orders accounts, one space between two, or -', 'accounts'),
  ...ROLE_FIELDS,
];

// The fields of a swap's leg: one of two takes, of which both act or neither does.
function legFields(number) {
  return [
    field(`Market ${number}`, number === 1 ? 'the market of the first leg' : 'the market of the second leg, another one', 'market'),
    field(`Coin wallet ${number}`, 'pays or gets the leg’s coin; a swap names each wallet once', 'coin'),
    field(`Pc wallet ${number}`, 'pays or gets the leg’s pc; a swap names each wallet once', 'pc'),
    field(`Data ${number}`, 'the leg’s take in base64: “Add a row” makes it; or type its words, such as take bid 50 1 600 0 0 10, and take what is offered', 'take'),
  ];
}

/** Fields of rows behind the first word, by that word. */
export const ROW_FORMS = {
  program: [field('Program', 'serum or openbook; as the first row only', 'program')],
  clock: [field('Now', 'the time for the rows behind this one, 0 to 2^63 - 1')],
  mint: [field('Address', NEW_ADDRESS), field('Decimals', 'how many digits stand behind the point, such as 6')],
  srm: [field('Mint', 'the mint that is SRM; it has 6 decimals', 'mint')],
  msrm: [field('Mint', 'the mint that is MSRM; it has 0 decimals', 'mint')],
  wallet: [
    field('Address', NEW_ADDRESS), field('Mint', 'a mint that a row above declares', 'mint'), field('Owner', 'an address word', 'signer'),
    field('Amount', NATIVE),
  ],
  market: [
    field('Address', `${NEW_ADDRESS}, the last two of them 00`), field('Coin', 'the mint that is traded', 'mint'),
    field('Pc', 'the mint that it is paid in', 'mint'),
    field('Authority', 'who may sweep fees, prune and disable', 'signer'), field('Bid nodes', '1 to 65,536; n orders need 2n - 1'),
    field('Ask nodes', '1 to 65,536; n orders need 2n - 1'), field('Events', 'room of the event queue, 1 to 65,535'),
    field('Data', 'lots, fee rate and dust in base64: “Add a row” makes it', 'data'),
  ],
  orders: [field('Market', 'a market that a row above declares', 'market'), field('Address', NEW_ADDRESS)],
  do: [...INSTRUCTION_FIELDS, field('Words', 'the instruction and its words, one space between two', 'do')],
  ix: [...INSTRUCTION_FIELDS, field('Data', 'the instruction’s bytes in base64', 'bytes')],
  swap: [LANE_FIELD, field('Signer', 'who signs both legs: the owner of the wallets that pay', 'signer'), ...legFields(1), ...legFields(2)],
  dump: [],
  enddump: [],
};

const LIMIT = field('Limit', 'how many orders it may meet, 0 to 65,535');
const DEAL = [
  field('Side', 'bid or ask', 'side'), field('Price', 'pc lots a coin lot', 'price'), field('Lots', 'how many coin lots'),
  field('Pc', 'the most native pc that it may spend, with the fee; an ask’s is not read, yet is above 0'),
];

/** Words of instructions behind the first one, by that word. */
export const WORD_FORMS = {
  init: [],
  new: [
    ...DEAL, field('Self-trade', 'what happens where it meets an own order', 'self'), field('Type', 'limit, immediate or cancel, post only', 'type'),
    field('Client id', 'a number of your own, to cancel by'), LIMIT, field('Latest', 'the last clock at which it is taken; may be left out'),
  ],
  take: [...DEAL, field('Least lots', 'refused where it gets fewer'), field('Least pc', 'refused where it gets less native pc'), LIMIT],
  cancel: [field('Side', 'bid or ask', 'side'), field('Order id', 'of an order that rests', 'order')],
  cancelc: [field('Client id', 'of the account’s order', 'client')],
  cancels: Array.from({ length: 8 }, () => field('Client id', 'of the account’s order; up to eight', 'client')),
  settle: [],
  consume: [field('Limit', 'how many events at most')],
  close: [],
  sweep: [],
  prune: [field('Limit', 'how many orders at most')],
  disable: [],
  match: [field('Limit', 'any number; the instruction does nothing')],
};

/** What each instruction is, in words. */
export const WORD_TITLES = {
  init: 'opens the account', new: 'a new order', take: 'a take, without an account', cancel: 'cancels an order by its id', cancelc: 'cancels by client id',
  cancels: 'cancels by client ids', settle: 'pays out what is free', consume: 'cranks events', close: 'closes the account', sweep: 'sweeps the fees',
  prune: 'the authority cancels orders', disable: 'disables the market', match: 'MatchOrders, which does nothing',
};

/** Words of which one must stand, by what is offered. */
export const WORD_LISTS = {
  program: ['serum', 'openbook'],
  side: ['bid', 'ask'],
  self: ['decrement', 'cancel', 'abort'],
  type: ['limit', 'ioc', 'post'],
};

/** What so many lots cost at a price, with the highest fee: the most native pc that a bid for them needs. */
export function budgetOf(price, lots, market) {
  const cost = price * lots * market.pcLot;
  return cost + (cost * 22n + 9999n) / 10000n;
}

// Bytes in base64.
function base64Of(view) { return btoa(String.fromCharCode(...new Uint8Array(view.buffer))); }

/** The data in base64 of the words of a take: version 0, tag 13, side, price, lots, pc, least lots, least pc, limit; null where they are none. */
export function takeData(words) {
  if (!/^take (bid|ask)( (0|[1-9][0-9]{0,19})){6}$/.test(words)) return null;
  const [, side, ...told] = words.split(' ');
  const numbers = told.map((word) => BigInt(word));
  const limit = numbers.pop();
  if (limit >= 1n << 16n || numbers.some((number) => number >= 1n << 64n)) return null;
  const view = new DataView(new ArrayBuffer(51));
  view.setUint32(1, 13, true);
  view.setUint32(5, Number(side === 'ask'), true);
  numbers.forEach((number, at) => view.setBigUint64(9 + 8 * at, number, true));
  view.setUint16(49, Number(limit), true);
  return base64Of(view);
}

/** The data of a market row: version 0, tag 0, coin lot, pc lot, fee rate, nonce, dust threshold, in base64. */
export function marketData({ coinLot, pcLot, feeRate = 0n, nonce = 0n, dust = 1n }) {
  const view = new DataView(new ArrayBuffer(39));
  view.setBigUint64(5, coinLot, true);
  view.setBigUint64(13, pcLot, true);
  view.setUint16(21, Number(feeRate), true);
  view.setBigUint64(23, nonce, true);
  view.setBigUint64(31, dust, true);
  return base64Of(view);
}
