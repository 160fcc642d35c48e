"""A market maker's day: a strategy that quotes both sides around what it believes, against a flow of others drawn from a seed.

From the top of the repository: PYTHONPATH=library python3 examples/market_making.py [REPORT]. REPORT gets the report of the whole day, which
`./view` makes a page of. docs/LIBRARY.md tells what the library needs.
"""

import sys
from dataclasses import dataclass, field

import daisyhook
from daisyhook import flow, rows

MAKER = rows.Trader('m', 'maker', account='maker_orders', coin='maker_coin', pc='maker_pc')
BID, ASK = 1, 2
LOT, PC_LOT = 100, 10
START_COIN, START_PC = 200_000, 500_000_000


@dataclass
class Maker:
    """Quotes `lots` on both sides, `width` ticks from the middle of the book, less where it holds too much and more where too little."""

    width: float = 2.0
    lots: int = 10
    lean: float = 0.05
    inventory: int = 0
    cash: int = 0
    fills: int = 0
    rebates: int = 0
    quoted: dict[int, int] = field(default_factory=dict)

    def quotes(self, depth: daisyhook.Depth) -> str:
        """The rows that put the quotes where they should be."""
        if not depth.bids or not depth.asks:
            return ''
        middle = (depth.bids[0].price + depth.asks[0].price) / 2 - self.lean * self.inventory
        wanted = {BID: max(1, int(middle - self.width)), ASK: int(middle + self.width) + 1}
        moved = [client for client, price in wanted.items() if self.quoted.get(client) != price]
        self.quoted = wanted
        made = [rows.cancel(MAKER, client) for client in moved]
        for client in moved:
            side, price = ('bid' if client == BID else 'ask'), wanted[client]
            quote = price * self.lots * PC_LOT * 101 // 100
            made.append(rows.new_order(MAKER, side=side, price=price, lots=self.lots, pc=quote if side == 'bid' else None, order_type='post',
                                       client=client))
        return ''.join(made)

    def take_in(self, events: tuple[daisyhook.Event, ...]) -> None:
        """Counts the fills that the crank is about to pay."""
        for event in events:
            if event.account != MAKER.account or event.kind != 'maker fill':
                continue
            self.fills += 1
            self.rebates += event.fee
            if event.is_bid:
                self.inventory += event.released // LOT
                self.cash -= event.paid
            else:
                self.inventory -= event.paid // LOT
                self.cash += event.released
            self.quoted.pop(event.client, None)


def main() -> None:
    crowd, maker = flow.Flow(flow.Parameters(seed=20, traders=6, volatility=0.5, spread=6.0)), Maker()
    setup = crowd.setup(nodes=909, events=1024).splitlines(keepends=True)
    wallets = [rows.wallet(MAKER.coin, 'coin', MAKER.signer, START_COIN), rows.wallet(MAKER.pc, 'usd', MAKER.signer, START_PC)]
    day = [''.join(setup[:2] + wallets + setup[2:]), rows.orders('m', MAKER.account), crowd.init(), rows.init(MAKER)]
    exchange = daisyhook.Exchange(''.join(day))
    accounts = [MAKER.account, *(who.account for who in crowd.traders)]
    count, steps = 0, 0
    while count < 20_000:
        market = exchange.report.markets['m']
        maker.take_in(market.events)
        step = rows.consume(MAKER, accounts) + maker.quotes(market.depth) + crowd.rows(market.depth, 2.0)
        exchange = exchange.step(step)
        day.append(step)
        count += step.count('\n')
        steps += 1
    last = rows.consume(MAKER, accounts) + rows.cancel(MAKER, BID, ASK) + rows.consume(MAKER, accounts) + rows.settle(MAKER)
    maker.take_in(exchange.report.markets['m'].events)
    exchange = exchange.step(last)
    day.append(last)
    whole = ''.join(day)
    worth = daisyhook.worth(whole).markets['m'][MAKER.account]
    wallets = exchange.report.wallets
    print(f'{count} rows in {steps} steps; the fair price went from {crowd.parameters.fair:.0f} to {crowd.fair:.0f}')
    print(f'fills {maker.fills}, rebates {maker.rebates} native quote')
    print(f'inventory {maker.inventory} lots, cash {maker.cash} native quote')
    print(f'wallets: coin {wallets[MAKER.coin].amount - START_COIN:+}, quote {wallets[MAKER.pc].amount - START_PC:+}')
    print(f'worth by the exchange: coin {worth.coin:+}, quote {worth.pc:+}')
    marked = maker.cash + maker.inventory * round(crowd.fair) * PC_LOT
    print(f'at the fair price the day made {marked} native quote')
    if len(sys.argv) > 1:
        with open(sys.argv[1], 'wb') as report:
            report.write(daisyhook.replay(whole).text)


if __name__ == '__main__':
    main()
