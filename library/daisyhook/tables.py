"""Places of fields in accounts, sizes of records, and values of refusals.

Made by tests/make/tables from bridge/tables.json: change that file, and run it again.
"""

# Of each layout the place of each field.
PLACES: dict[str, dict[str, int]] = {
    'market': {
        'serum': 0, 'account_flags': 5, 'own_address': 13, 'vault_signer_nonce': 45, 'coin_mint': 53, 'pc_mint': 85, 'coin_vault':
        117, 'coin_deposits_total': 149, 'coin_fees_accrued': 157, 'pc_vault': 165, 'pc_deposits_total': 197, 'pc_fees_accrued':
        205, 'pc_dust_threshold': 213, 'req_q': 221, 'event_q': 253, 'bids': 285, 'asks': 317, 'coin_lot_size': 349,
        'pc_lot_size': 357, 'fee_rate_bps': 365, 'referrer_rebates_accrued': 373, 'padding': 381,
    },
    'open_orders': {
        'serum': 0, 'account_flags': 5, 'market': 13, 'owner': 45, 'native_coin_free': 77, 'native_coin_total': 85,
        'native_pc_free': 93, 'native_pc_total': 101, 'free_slot_bits': 109, 'is_bid_bits': 125, 'orders': 141,
        'client_order_ids': 2189, 'referrer_rebates_accrued': 3213, 'padding': 3221,
    },
    'request_queue': {
        'serum': 0, 'account_flags': 5, 'head': 13, 'count': 21, 'next_seq_num': 29,
    },
    'event_queue': {
        'serum': 0, 'account_flags': 5, 'head': 13, 'count': 21, 'seq_num': 29,
    },
    'event': {
        'flags': 0, 'owner_slot': 1, 'fee_tier': 2, 'padding': 3, 'native_qty_released': 8, 'native_qty_paid': 16,
        'native_fee_or_rebate': 24, 'order_id': 32, 'owner': 48, 'client_order_id': 80,
    },
    'slab': {
        'serum': 0, 'account_flags': 5, 'bump_index': 13, 'free_list_len': 21, 'free_list_head': 29, 'root_node': 33,
        'leaf_count': 37,
    },
    'inner_node': {
        'tag': 0, 'prefix_len': 4, 'key': 8, 'first_child': 24, 'second_child': 28, 'padding': 32,
    },
    'leaf_node': {
        'tag': 0, 'owner_slot': 4, 'fee_tier': 5, 'padding': 6, 'key': 8, 'owner': 24, 'quantity': 56, 'client_order_id': 64,
    },
    'free_node': {
        'tag': 0, 'next': 4, 'padding': 8,
    },
    'token_account': {
        'mint': 0, 'owner': 32, 'amount': 64, 'delegate': 72, 'state': 108, 'is_native': 109, 'delegated_amount': 121,
        'close_authority': 129,
    },
    'mint': {
        'mint_authority': 0, 'supply': 36, 'decimals': 44, 'is_initialized': 45, 'freeze_authority': 46,
    },
}

# How many bytes each layout has.
SIZES: dict[str, int] = {
    'market': 388,
    'open_orders': 3228,
    'request_queue': 37,
    'event_queue': 37,
    'event': 88,
    'slab': 45,
    'inner_node': 72,
    'leaf_node': 72,
    'free_node': 72,
    'token_account': 165,
    'mint': 82,
}

# The names of the values of each refusal that has some.
REFUSAL_VALUES: dict[str, tuple[str, ...]] = {
    'BadData': ('rule',),
    'NotOwner': ('owner',),
    'NotAuthority': ('authority',),
    'WrongMint': ('mint',),
    'WalletNotSigned': ('owner',),
    'NotEmpty': ('slots', 'funds'),
    'TimePast': ('clock', 'latest'),
    'OrderNotYours': ('account',),
    'WouldSelfTrade': ('order',),
    'BelowMinimum': ('filled',),
    'EventQueueFull': ('events', 'free'),
    'InsufficientFunds': ('deposit', 'balance'),
    'BalanceTooLarge': ('balance', 'credit'),
    'SumTooLarge': ('vault', 'pending'),
}
