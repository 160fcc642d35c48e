// The fee tiers: who reaches which, what takers pay and what makers get by it.

import { FEES } from './tables.js';

const SRM_STEPS = FEES.srmSteps.map((amount) => BigInt(amount) * 1000000n);

/** The number of the tier that a discount wallet's balance reaches; `isMega` where its mint is MSRM. */
export function tierOf(balance, isMega) {
  if (isMega) return balance >= 1n ? 6 : 0;
  return SRM_STEPS.filter((step) => balance >= step).length;
}

/** A maker's rebate on a fill of native quote, rounded down. */
export function rebateOf(pc, tier, program) { return (pc * BigInt(FEES.maker[program][tier])) / 10000n; }

/** A taker's fee on native quote, rounded up. */
export function takerFeeOf(pc, tier, program) { return (pc * BigInt(FEES.taker[program][tier]) + 9999n) / 10000n; }
