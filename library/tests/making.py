"""Rows that the module builds, steps that keep program and clock, the depth of a book, and the flow of others.

making.py ROOT. Prints 'N passed, M failed'.
"""

from counting import end, root, same
import daisyhook
from daisyhook import flow, rows


def refused(what: str, call, *words, **more) -> None:
    """Counts a check as passed where a call raises ValueError."""
    try:
        same(what, call(*words, **more), 'ValueError')
    except ValueError:
        same(what, 0, 0)


amy = rows.Trader('m', 'ann', account='amy', coin='ann_coin', pc='ann_usd')
ben = rows.Trader('m', 'bob', account='ben', coin='bob_coin', pc='bob_usd', lane=1)
# Rows of examples/two_traders.csv and examples/market_maker.csv, in the module's words.
for built, wanted in (
    (rows.mint('coin', 6), 'mint,coin,6'),
    (rows.wallet('ann_coin', 'coin', 'ann', 1000), 'wallet,ann_coin,coin,ann,1000'),
    (rows.market('m', 'coin', 'usd', 'admin', coin_lot=100, pc_lot=10, nodes=5, events=8),
     'market,m,coin,usd,admin,5,5,8,AAAAAABkAAAAAAAAAAoAAAAAAAAAAAAAAAAAAAAAAAEAAAAAAAAA'),
    (rows.orders('m', 'amy'), 'orders,m,amy'),
    (rows.init(amy), 'do,0,m,ann,amy,-,-,-,-,init'),
    (rows.new_order(amy, side='ask', price=50, lots=4, client=7, limit=10), 'do,0,m,ann,amy,ann_coin,-,-,-,new ask 50 4 1 decrement limit 7 10'),
    (rows.new_order(ben, side='bid', price=60, lots=3, pc=2000, client=8, limit=10),
     'do,1,m,bob,ben,-,bob_usd,-,-,new bid 60 3 2000 decrement limit 8 10'),
    (rows.new_order(ben, side='bid', price=60, lots=3, pc=2000, latest=5), 'do,1,m,bob,ben,-,bob_usd,-,-,new bid 60 3 2000 decrement limit 0 65535 5'),
    (rows.take(ben, side='ask', price=48, lots=3, least_lots=3), 'do,1,m,bob,-,bob_coin,bob_usd,-,-,take ask 48 3 1 3 0 65535'),
    (rows.cancel(amy, 7), 'do,0,m,ann,amy,-,-,-,-,cancelc 7'),
    (rows.cancel(amy, 7, 9), 'do,0,m,ann,amy,-,-,-,-,cancels 7 9'),
    (rows.cancel(amy, side='ask', order=50 << 64), 'do,0,m,ann,amy,-,-,-,-,cancel ask 922337203685477580800'),
    (rows.consume(amy, ['amy', 'ben'], 10), 'do,0,m,ann,amy ben,-,-,-,-,consume 10'),
    (rows.settle(ben), 'do,1,m,bob,ben,bob_coin,bob_usd,-,-,settle'),
    (rows.close(ben), 'do,1,m,bob,ben,-,-,-,-,close'),
    (rows.clock(5), 'clock,5'),
):
    same('a row', built, wanted + '\n')
same('two rows', rows.replace(amy, 7, side='ask', price=51, lots=2),
     rows.cancel(amy, 7) + rows.new_order(amy, side='ask', price=51, lots=2, client=7))
refused('a bid without its quote', rows.new_order, ben, side='bid', price=60, lots=3)
refused('a side', rows.new_order, ben, side='buy', price=60, lots=3, pc=1)
refused('a price of 0', rows.new_order, amy, side='ask', price=0, lots=3)
refused('lots beyond 64 bits', rows.new_order, amy, side='ask', price=1, lots=2**64)
refused('an address with a comma', rows.orders, 'm', 'amy,ben')
refused('nine client ids', rows.cancel, amy, *range(1, 10))
refused('no account', rows.settle, rows.Trader('m', 'ann'))

# Each way to cut the example leaves the accounts of the whole, its program and its clock among them.
script = (root / 'examples/openbook_clock.csv').read_text().splitlines(keepends=True)
first = next(at for at, line in enumerate(script) if line.startswith('do,'))
whole = daisyhook.Exchange(''.join(script))
for cut in range(first, len(script)):
    step = daisyhook.Exchange(''.join(script[:cut])).step(''.join(script[cut:]))
    same(f'cut before row {cut + 1}', step.dump, whole.dump)
exchange = daisyhook.Exchange(''.join(script[:first]))
for line in script[first:]:
    exchange = exchange.step(line)
same('row by row', exchange.dump, whole.dump)
same('the number of a row', daisyhook.Exchange(''.join(script[:-1])).step(script[-1]).report.markets['m'].journal[0].row,
     daisyhook.Exchange(''.join(script[:-1])).first_row)

# The depth is that of the orders.
book = daisyhook.replay((root / 'examples/deep_book.csv').read_bytes()).markets['m']
for side, levels in ((book.bids, book.depth.bids), (book.asks, book.depth.asks)):
    prices = list(dict.fromkeys(order.price for order in side))
    same('prices', [level.price for level in levels], prices)
    for level in levels:
        there = [order for order in side if order.price == level.price]
        same('a level', (level.lots, level.orders), (sum(order.lots for order in there), len(there)))

# One seed gives one flow, another another; each row of it is one that a script may have.
flows = [flow.Flow(flow.Parameters(seed=seed)) for seed in (3, 3, 4)]
texts = [one.rows(daisyhook.Depth((), ()), 50.0) for one in flows]
same('one seed, one flow', texts[0], texts[1])
same('another seed, another flow', texts[0] == texts[2], False)
report = daisyhook.replay(flows[0].setup() + flows[0].init() + texts[0])
same('rows of a flow', report.rows, texts[0].count('\n') + len(flows[0].traders))
refusals = [entry.reply for entry in report.markets['m'].journal if isinstance(entry.reply, daisyhook.Refused)]
same('what is refused of a flow', {reply.name for reply in refusals} <= {'ClientIdNotFound', 'TooManyOpenOrders'}, True)

end()
