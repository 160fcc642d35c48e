// Made by tests/make/tables from bridge/tables.json: change that file, and run it again.

/** Each layout as its fields, one after the other: NAME, *COUNT where it is there several times, :LENGTH where that is not 8. */
export const LAYOUT_WORDS = {
  'market': 'serum:5 account_flags own_address:32 vault_signer_nonce coin_mint:32 pc_mint:32 coin_vault:32'
    + ' coin_deposits_total coin_fees_accrued pc_vault:32 pc_deposits_total pc_fees_accrued pc_dust_threshold req_q:32'
    + ' event_q:32 bids:32 asks:32 coin_lot_size pc_lot_size fee_rate_bps referrer_rebates_accrued padding:7',
  'open orders': 'serum:5 account_flags market:32 owner:32 native_coin_free native_coin_total native_pc_free native_pc_total'
    + ' free_slot_bits:16 is_bid_bits:16 orders*128:16 client_order_ids*128 referrer_rebates_accrued padding:7',
  'request queue': 'serum:5 account_flags head count next_seq_num',
  'event queue': 'serum:5 account_flags head count seq_num',
  'event': 'flags:1 owner_slot:1 fee_tier:1 padding:5 native_qty_released native_qty_paid native_fee_or_rebate order_id:16'
    + ' owner:32 client_order_id',
  'slab': 'serum:5 account_flags bump_index free_list_len free_list_head:4 root_node:4 leaf_count',
  'inner node': 'tag:4 prefix_len:4 key:16 first_child:4 second_child:4 padding:40',
  'leaf node': 'tag:4 owner_slot:1 fee_tier:1 padding:2 key:16 owner:32 quantity client_order_id',
  'free node': 'tag:4 next:4 padding:64',
  'token account': 'mint:32 owner:32 amount delegate:36 state:1 is_native:12 delegated_amount close_authority:36',
  'mint': 'mint_authority:36 supply decimals:1 is_initialized:1 freeze_authority:36',
};

/** How many SRM reach each tier, and rates in basis points by program and tier. */
export const FEES = {
  srmSteps: [100, 1000, 10000, 100000, 1000000],
  taker: { serum: [22, 20, 18, 16, 14, 12, 10], openbook: [4, 4, 4, 4, 4, 4, 4] },
  maker: { serum: [3, 3, 3, 3, 3, 3, 5], openbook: [2, 2, 2, 2, 2, 2, 2] },
};

/** The refusals from 1 on, each with the names of its values. */
export const REFUSAL_VALUES = [
  ['BadData', 'rule'],
  ['MarketDisabled', ''],
  ['NoAccount', ''],
  ['AccountExists', ''],
  ['NotOwner', 'owner'],
  ['NotAuthority', 'authority'],
  ['WrongMint', 'mint'],
  ['WalletNotSigned', 'owner'],
  ['NotEmpty', 'slots funds'],
  ['TooManyOpenOrders', ''],
  ['AskTooLarge', ''],
  ['SequenceExhausted', ''],
  ['TimePast', 'clock latest'],
  ['OrderNotFound', ''],
  ['SideMismatch', ''],
  ['OrderNotYours', 'account'],
  ['ClientIdZero', ''],
  ['ClientIdNotFound', ''],
  ['WouldSelfTrade', 'order'],
  ['BelowMinimum', 'filled'],
  ['EventQueueFull', 'events free'],
  ['InsufficientFunds', 'deposit balance'],
  ['BalanceTooLarge', 'balance credit'],
  ['SumTooLarge', 'vault pending'],
];
