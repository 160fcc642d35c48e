"""Swaps: Bob buys on one market and sells on another in one row, so that both happen or neither.

From the top of the repository: PYTHONPATH=library python3 library/examples/swap.py
"""

import daisyhook

START = """mint,coin,6
mint,usd,6
wallet,ann_coin,coin,ann,1000
wallet,ann_usd,usd,ann,3000
wallet,bob_coin,coin,bob,0
wallet,bob_usd,usd,bob,5000
wallet,bob_coin2,coin,bob,300
wallet,bob_usd2,usd,bob,0
market,m,coin,usd,admin,63,63,64,AAAAAABkAAAAAAAAAAoAAAAAAAAAAAAAAAAAAAAAAAEAAAAAAAAA
market,n,coin,usd,admin,63,63,64,AAAAAABkAAAAAAAAAAoAAAAAAAAAAAAAAAAAAAAAAAEAAAAAAAAA
orders,m,amy
orders,n,any
do,0,m,ann,amy,-,-,-,-,init
do,0,n,ann,any,-,-,-,-,init
do,0,m,ann,amy,ann_coin,-,-,-,new ask 50 5 1 decrement limit 1 10
do,0,n,ann,any,-,ann_usd,-,-,new bid 70 4 2900 decrement limit 1 10
"""

exchange = daisyhook.Exchange(START)
for lots in (2, 3, 1):
    buy = daisyhook.take_data('bid', 60, lots, 700 * lots, least_lots=lots)
    sell = daisyhook.take_data('ask', 65, lots, 1, least_lots=lots)
    exchange = exchange.step(f'swap,1,bob,m,bob_coin,bob_usd,{buy},n,bob_coin2,bob_usd2,{sell}\n')
    (swap,) = exchange.report.swaps.values()
    print(f'{lots} lots: {"both legs act" if swap.acted else "neither leg acts"}')
    for leg in swap.legs:
        print(f'  on {leg.market}: {"held back" if leg.is_held_back else leg.entry.reply}')
