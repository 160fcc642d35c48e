"""Instructions on a market's account bytes, in this process' memory: Ann asks, Bob buys, a crank pays both, and they
settle.

From the top of the repository: PYTHONPATH=library python3 library/examples/market.py
"""

import daisyhook
from daisyhook import data

WALLETS = {
    'ann_coin': ('coin', 'ann', 1000), 'ann_usd': ('usd', 'ann', 0),
    'bob_coin': ('coin', 'bob', 0), 'bob_usd': ('usd', 'bob', 5000),
}

market = daisyhook.Market.new(pc='usd', coin_lot=100, pc_lot=10, nodes=63, events=64, accounts=['amy', 'ben'],
                              wallets=WALLETS)
for person, account in (('ann', 'amy'), ('bob', 'ben')):
    print(market.process(person, data.init(), named=[account]))

print(market.process('ann', data.new_order(side='ask', price=50, lots=4, client=7), named=['amy'], coin='ann_coin'))
print(market.depth(5))
print(market.process('bob', data.new_order(side='bid', price=60, lots=3, pc=9000), named=['ben'], pc='bob_usd'))
print(market.process('bob', data.new_order(side='bid', price=60, lots=3, pc=2000), named=['ben'], pc='bob_usd'))
print([event.kind for event in market.events])
print(market.process('bob', data.consume(), named=['amy', 'ben']))
print(market.process('ann', data.settle(), named=['amy'], coin='ann_coin', pc='ann_usd'))
print(market.process('bob', data.settle(), named=['ben'], coin='bob_coin', pc='bob_usd'))
print({wallet: market.amount(wallet) for wallet in market.wallets})
print(daisyhook.audit(market.dump()))
