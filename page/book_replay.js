// A market's book as it was at each row: the journal's rows with their script, one after the other, so that each order's life is known.
// The replies of the journal bound what was filled; what comes out at the end has to be the book and the queue of the dump.

import { rebateOf, takerFeeOf, tierOf } from './fees.js';
import { lockedBy } from './sums.js';

const key = (id, isBid) => `${isBid ? 'b' : 'a'}${id}`;

// The lesser of some numbers.
function least(...numbers) { return numbers.reduce((one, other) => (other < one ? other : one)); }

/** A market that is replayed. */
export class BookReplay {
  constructor({ market, exchange, program, start }) {
    Object.assign(this, { market, exchange, program, why: null, row: 0 });
    this.orders = new Map();
    this.bids = [];
    this.asks = [];
    this.queue = [];
    // By the row of a taker: its fills, one for each maker.
    this.fillsOf = new Map();
    this.feesAgree = true;
    if (start !== undefined) this.begin(start);
  }

  // Takes the orders and events of the dump at the script's start.
  begin(start) {
    for (const side of ['bids', 'asks']) {
      for (const order of start[side].orders) this[side].push(this.born({ ...order, account: order.owner, left: order.lots, asked: order.lots }));
    }
    for (const event of start.events.list) {
      const known = this.orders.get(key(event.id, event.isBid)) || this.born({ ...event, account: event.owner, left: 0n, asked: null });
      this.queue.push({ kind: event.kind, order: known, isLast: event.kind.endsWith('out') && event.paid === 0n, row: null });
      if (this.queue[this.queue.length - 1].isLast) known.state = 'out pending';
    }
  }

  // A new order's life.
  born({ id, isBid, price, sequence, account, client, tier, left, asked, row = null, signer = null, type = null, slot }) {
    const life = { id, isBid, price, sequence, account, client, tier, left, asked, row, signer, type, slot };
    Object.assign(life, { steps: [], filled: 0n, rebates: 0n, state: 'rests' });
    this.orders.set(key(id, isBid), life);
    return life;
  }

  // Appends an event to the queue.
  push(kind, order, isLast = false) { this.queue.push({ kind, order, isLast, row: this.row }); }

  // Takes an order from its side; the last out of it waits for a crank from now on.
  leave(order, what) {
    const side = order.isBid ? this.bids : this.asks;
    side.splice(side.indexOf(order), 1);
    if (what !== null) order.steps.push({ row: this.row, what, lots: order.left });
    order.left = 0n;
    order.state = 'out pending';
  }

  // Fills lots of the best opposite order.
  fill(taker, maker, lots) {
    const pc = lots * maker.price * this.market.pcLot;
    const rebate = rebateOf(pc, maker.tier, this.program);
    maker.left -= lots;
    maker.filled += lots;
    maker.rebates += rebate;
    maker.steps.push({ row: this.row, what: 'filled as maker', lots, price: maker.price, rebate, other: taker });
    this.fillsOf.get(this.row).push({ maker, lots, price: maker.price, pc, rebate });
    this.push('maker fill', maker);
    if (maker.left > 0n) return;
    this.push('out', maker, true);
    this.leave(maker, null);
  }

  // Takes lots of an own order by the self-trade rule; answers the lots that the taker loses.
  meetOwn(own, self, wanted) {
    const taken = self === 'cancel' ? own.left : least(own.left, wanted);
    if (taken === own.left) {
      this.leave(own, self === 'cancel' ? 'cancelled by an own order that met it' : 'taken away by an own order that met it');
      this.push('releasing out', own, true);
    } else {
      own.left -= taken;
      own.steps.push({ row: this.row, what: 'reduced by an own order that met it', lots: taken });
      this.push('releasing out', own);
    }
    return self === 'cancel' ? 0n : taken;
  }

  // Lets a taker meet the opposite side; answers the lots that it still wants. `bound` is how many lots the reply says were filled.
  meet({ side, price, lots, limit, self }, account, bound, taker) {
    const opposite = side === 'bid' ? this.asks : this.bids;
    let [wanted, filled, met] = [lots, 0n, limit];
    this.fillsOf.set(this.row, []);
    while (met > 0n && wanted > 0n && opposite.length > 0) {
      const [best] = opposite;
      if (side === 'bid' ? best.price > price : best.price < price) break;
      if (account !== null && best.account === account) wanted -= this.meetOwn(best, self, wanted);
      else {
        const now = least(best.left, wanted, bound - filled);
        if (now === 0n) break;
        this.fill(taker, best, now);
        filled += now;
        wanted -= now;
      }
      met -= 1n;
    }
    if (filled !== bound) this.fail(`${bound} lots were filled, and ${filled} come out`);
    return wanted;
  }

  // Notes that the replay does not come out as the journal says.
  fail(why) { if (this.why === null) this.why = `at row ${this.row} ${why}`; }

  // The tier of a row's discount wallet.
  tierAt(asked, entry) {
    const { discount } = asked.roles;
    const move = entry.moves.find(({ wallet }) => wallet === discount);
    if (discount === '-' || move === undefined) return 0;
    return tierOf(move.before, this.exchange.wallets.get(discount).mint === this.exchange.msrm);
  }

  // Looks whether the fee that was told is the tier's.
  checkFee({ pc, fee }, tier) { if (pc > 0n && takerFeeOf(pc, tier, this.program) !== fee) this.feesAgree = false; }

  // A new order.
  order(asked, entry) {
    const { instruction } = asked;
    const { values } = entry;
    const isBid = instruction.side === 'bid';
    const low = values.id & 0xffffffffffffffffn;
    const tier = this.tierAt(asked, entry);
    const life = this.born({
      id: values.id, isBid, price: values.id >> 64n, sequence: isBid ? 0xffffffffffffffffn - low : low, account: asked.named[0], tier, left: 0n,
      client: instruction.client, asked: instruction.lots, row: entry.row, signer: asked.signer, type: instruction.type, slot: Number(values.slot),
    });
    this.checkFee(values, tier);
    const isPost = instruction.type === 'post';
    const wanted = isPost ? instruction.lots : this.meet(instruction, asked.named[0], values.lots, life);
    life.filled = values.lots;
    life.steps.push({ row: this.row, what: 'placed', lots: instruction.lots });
    if (values.lots > 0n) {
      this.push('taker fill', life);
      life.steps.push({ row: this.row, what: 'filled as taker', lots: values.lots, pc: values.pc, fee: values.fee, fills: this.fillsOf.get(this.row) });
    }
    this.settleRest(life, values.rested, wanted);
  }

  // Puts what is left of a new order on its side, or ends it.
  settleRest(life, rested, wanted) {
    const side = life.isBid ? this.bids : this.asks;
    if (rested === 0n) {
      life.state = 'out pending';
      life.steps.push({ row: this.row, what: wanted > 0n ? 'the rest did not rest' : 'used up', lots: wanted });
      this.push('out', life, true);
      return;
    }
    const { capacity } = life.isBid ? this.market.bids : this.market.asks;
    if (side.length >= capacity) {
      const worst = side[side.length - 1];
      this.leave(worst, 'had to leave a full side');
      this.push('releasing out', worst, true);
    }
    life.left = rested;
    life.steps.push({ row: this.row, what: 'rests', lots: rested });
    let [low, high] = [0, side.length];
    while (low < high) {
      const middle = (low + high) >> 1;
      if ((side[middle].id > life.id) === life.isBid) low = middle + 1;
      else high = middle;
    }
    side.splice(low, 0, life);
  }

  // A take, of nobody.
  take(asked, entry) {
    this.checkFee(entry.values, this.tierAt(asked, entry));
    this.meet(asked.instruction, null, entry.values.lots, { row: entry.row, isTake: true, signer: asked.signer });
  }

  // The resting orders of an account, bids before asks, each side in book order.
  ordersOf(account) { return [...this.bids, ...this.asks].filter((order) => order.account === account); }

  // The oldest resting order of an account with a client id.
  oldest(account, client) {
    return this.ordersOf(account).filter((order) => order.client === client)
      .reduce((one, other) => (one === null || other.sequence < one.sequence ? other : one), null);
  }

  // Orders that leave by a cancel or a prune.
  cancel(asked, entry) {
    const { name, side, id, client, clients, limit } = asked.instruction;
    const [account] = asked.named;
    let gone = [];
    if (name === 'cancel') gone = [this.orders.get(key(id, side === 'bid'))];
    else if (name === 'prune') gone = this.ordersOf(account).slice(0, Number(limit));
    const takeOut = (order) => {
      if (!order || order.left === 0n) return 0;
      this.leave(order, name === 'prune' ? 'pruned' : 'cancelled');
      this.push('releasing out', order, true);
      return 1;
    };
    let count = gone.reduce((sum, order) => sum + takeOut(order), 0);
    const named = name === 'cancelc' ? [client] : clients;
    for (const one of named) if (one !== 0n) count += takeOut(this.oldest(account, one));
    if (BigInt(count) !== entry.values.count) this.fail(`${entry.values.count} orders left, and ${count} come out`);
  }

  // Events that a crank pays.
  consume(entry) {
    const count = Number(entry.values.count);
    if (count > this.queue.length) this.fail(`${count} events were consumed, and ${this.queue.length} wait`);
    for (const { kind, order, isLast } of this.queue.splice(0, count)) {
      if (isLast) order.state = 'over';
      order.steps.push({ row: this.row, what: isLast ? 'out: its slot is free' : `crank pays the ${kind}`, isCrank: true });
    }
  }

  /** Lets an accepted entry of the journal act. */
  act(asked, kind, entry) {
    this.row = entry.row;
    if (asked === null || asked.instruction === null) this.fail('the script has no instruction');
    else if (kind === 'order') this.order(asked, entry);
    else if (kind === 'take') this.take(asked, entry);
    else if (kind === 'cancelled') this.cancel(asked, entry);
    else if (kind === 'consumed') this.consume(entry);
  }

  /** Compares what came out with the accounts of the dump. */
  finish() {
    for (const side of ['bids', 'asks']) {
      const told = this.market[side].orders.map(({ id, lots }) => `${id} ${lots}`).join(' ');
      if (this[side].map(({ id, left }) => `${id} ${left}`).join(' ') !== told) this.fail(`the ${side} are others than those of the dump`);
    }
    const waiting = this.market.events.list.map(({ kind, id }) => `${kind} ${id}`).join(' ');
    if (this.queue.map(({ kind, order }) => `${kind} ${order.id}`).join(' ') !== waiting) this.fail('other events wait than in the dump');
    return this;
  }

  /** What the resting orders of a life lock. */
  lockedOf(life) { return lockedBy({ ...life, lots: life.left }, this.market); }
}
