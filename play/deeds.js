// Rows that are written by a click: the cancel of an order that rests, the settling of an account.

import { element } from '../page/elements.js';
import { knownOf, walletsOf } from './declared.js';

/** The lane in which somebody acted last; 0 where nobody did. */
export function laneOf(script, signer) {
  if (script === null) return '0';
  for (let row = script.count; row > 0; row -= 1) {
    if (script.kinds[row] > 0 && script.signerOf(row) === signer) return script.fieldsOf(row)[1];
  }
  return '0';
}

/** A row of an instruction in words. */
export function doRow({ lane, market, signer, accounts, coin = '-', pc = '-', discount = '-', referrer = '-', words }) {
  return ['do', lane, market, signer, accounts, coin, pc, discount, referrer, words].join(',');
}

// The row that cancels an order.
function cancelRow(shown, market, order) {
  const signer = market.traders.get(order.owner).owner;
  return doRow({
    lane: laneOf(shown.script, signer), market: market.address, signer, accounts: order.owner, words: `cancel ${order.isBid ? 'bid' : 'ask'} ${order.id}`,
  });
}

// The row that settles an account; null where its owner has no wallet for one of both tokens.
function settleRow(shown, market, trader) {
  const known = knownOf('', shown.exchange);
  const wallet = (mint) => walletsOf(known, mint, trader.owner).find((address) => known.wallets.get(address).owner === trader.owner);
  const [coin, pc] = [wallet(market.coinMint), wallet(market.pcMint)];
  if (coin === undefined || pc === undefined) return null;
  return doRow({ lane: laneOf(shown.script, trader.owner), market: market.address, signer: trader.owner, accounts: trader.address, coin, pc, words: 'settle' });
}

/** Buttons of the views that write rows; `write` takes a row. */
export class Deeds {
  constructor(shown, write) {
    Object.assign(this, { shown, write });
  }

  // A button that writes a row.
  button(text, title, row) {
    const click = (event) => {
      event.stopPropagation();
      this.write(row);
    };
    return element('button', { type: 'button', class: 'deed', title, click }, text);
  }

  /** The button that cancels an order; nothing where its account is not there. */
  ofOrder(market, order) {
    if (!market.traders.has(order.owner)) return '';
    return this.button('Cancel', 'writes the row that cancels this order', cancelRow(this.shown, market, order));
  }

  /** The button that settles an account; nothing where it cannot be settled by a row of its owner. */
  ofAccount(market, trader) {
    const row = trader.state === 'open' ? settleRow(this.shown, market, trader) : null;
    return row === null ? '' : this.button('Settle', 'writes the row that settles this account', row);
  }
}
