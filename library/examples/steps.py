"""A simulation step by step: Ann asks for a higher price each time, until her wallet is empty; then Bob buys what he can.

From the top of the repository: PYTHONPATH=library python3 library/examples/steps.py
"""

import daisyhook

START = """mint,coin,6
mint,usd,6
wallet,ann_coin,coin,ann,700
wallet,bob_usd,usd,bob,50000
market,m,coin,usd,admin,63,63,64,AAAAAABkAAAAAAAAAAoAAAAAAAAAAAAAAAAAAAAAAAEAAAAAAAAA
orders,m,amy
orders,m,ben
do,0,m,ann,amy,-,-,-,-,init
do,1,m,bob,ben,-,-,-,-,init
"""


def reply_to(exchange: daisyhook.Exchange) -> daisyhook.Reply:
    """What the one row of the last step was answered."""
    (entry,) = exchange.report.markets['m'].journal
    return entry.reply


exchange = daisyhook.Exchange(START)
price = 60
while True:
    exchange = exchange.step(f'do,0,m,ann,amy,ann_coin,-,-,-,new ask {price} 2 10000 decrement limit {price} 10\n')
    reply = reply_to(exchange)
    if isinstance(reply, daisyhook.Refused):
        print(f'ask at {price}: {reply.name} {reply.values}')
        break
    print(f'ask at {price}: {reply.lots_resting} lots rest')
    price += 1

# An exchange never changes, so from one two ways may be tried.
for limit in (60, 62):
    tried = exchange.step(f'do,1,m,bob,ben,-,bob_usd,-,-,new bid {limit} 9 40000 decrement ioc 7 10\n')
    reply = reply_to(tried)
    print(f'bid at {limit}: {reply.lots_filled} lots for {reply.pc}, fee {reply.fee}; asks left: {tried.report.markets["m"].depth.asks}')
