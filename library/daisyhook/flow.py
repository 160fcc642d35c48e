"""A flow of orders against which a strategy can be tried: what others do on a market, drawn from a seed.

A fair price moves at random. Around it others place and cancel orders, buy and sell without knowing it, and now and then somebody who knows it
takes what is priced wrong. All arrivals are Poisson processes, whose rates are for each unit of time:

| Who | Comes | Does |
|---|---|---|
| makers | `limit_rate` | a limit order on either side, 1 + a geometric number of ticks from the fair price |
| cancels | `cancel_rate` for each order that rests | cancels it |
| takers | `take_rate` | an immediate-or-cancel order on either side, a few ticks through the fair price |
| informed takers | `informed_rate` | where the best price is more than `edge` ticks on the wrong side of the fair price: takes it, else nothing |

A tick is one pc lot. The same seed and parameters give the same flow, as long as the book that is shown to it is the same.

>>> from daisyhook import Exchange, flow
>>> crowd = flow.Flow(flow.Parameters(seed=7))
>>> exchange = Exchange(crowd.setup())
>>> exchange = exchange.step(crowd.rows(exchange.report.markets['m'].depth, 1.0))
"""

from __future__ import annotations

import math
import random
from collections.abc import Iterator
from dataclasses import dataclass

from . import rows
from .accounts import Depth


@dataclass(frozen=True, slots=True)
class Parameters:
    """What a flow is like. Rates are for each unit of time, prices and widths in ticks, sizes in coin lots."""

    seed: int = 1
    fair: float = 1000.0
    volatility: float = 1.0
    limit_rate: float = 8.0
    cancel_rate: float = 0.05
    take_rate: float = 3.0
    informed_rate: float = 0.5
    edge: float = 1.0
    spread: float = 3.0
    size: float = 4.0
    traders: int = 6
    coin_lot: int = 100
    pc_lot: int = 10


class Flow:
    """What others do. `fair` is the fair price now, in ticks; `now` how much time has passed."""

    def __init__(self, parameters: Parameters, market: str = 'm') -> None:
        self.parameters, self.market = parameters, market
        self.fair, self.now = parameters.fair, 0.0
        self._draws = random.Random(parameters.seed)
        self._client = 0
        # The orders that may rest still: their traders and client ids.
        self._placed: list[tuple[rows.Trader, int]] = []
        self.traders = tuple(
            rows.Trader(market, f'other_{number}', account=f'orders_{number}', coin=f'coin_{number}', pc=f'pc_{number}', lane=1)
            for number in range(parameters.traders))

    def setup(self, nodes: int = 909, events: int = 2978) -> str:
        """Setup rows: the market, and the wallets and accounts of all who act in the flow. Rows of others may stand behind them, before the
        first step; `init` opens the accounts."""
        amount = 10**15
        made = [rows.mint('coin', 6), rows.mint('usd', 6)]
        for who in self.traders:
            made += [rows.wallet(who.coin, 'coin', who.signer, amount), rows.wallet(who.pc, 'usd', who.signer, amount)]
        made.append(rows.market(self.market, 'coin', 'usd', 'admin', coin_lot=self.parameters.coin_lot, pc_lot=self.parameters.pc_lot,
                                nodes=nodes, events=events))
        return ''.join(made + [rows.orders(self.market, who.account) for who in self.traders])

    def init(self) -> str:
        """The rows that open the accounts of all who act in the flow."""
        return ''.join(map(rows.init, self.traders))

    def rows(self, depth: Depth, time: float) -> str:
        """The rows of the next `time`, by those who see this depth."""
        return ''.join(self._arrivals(depth, time))

    def _arrivals(self, depth: Depth, time: float) -> Iterator[str]:
        wanted, end = self.parameters, self.now + time
        while True:
            rates = wanted.limit_rate, wanted.cancel_rate * len(self._placed), wanted.take_rate, wanted.informed_rate
            wait = -math.log(1.0 - self._draws.random()) / sum(rates)
            self._move(min(wait, end - self.now))
            if self.now >= end:
                return
            kind = self._draws.random() * sum(rates)
            for rate, act in zip(rates, (self._limit, self._cancel, self._take, lambda: self._informed(depth))):
                if kind < rate:
                    yield from act()
                    break
                kind -= rate

    def _move(self, time: float) -> None:
        """Lets time pass: the fair price is a random walk, and stays above the widest order."""
        self.now += time
        steps = sum(self._draws.random() for _ in range(12)) - 6.0
        self.fair = max(50.0, self.fair + self.parameters.volatility * math.sqrt(time) * steps)

    def _geometric(self, mean: float) -> int:
        """A geometric number with this mean, at least 1."""
        return 1 + int(math.log(1.0 - self._draws.random()) / math.log(1.0 - 1.0 / max(mean, 1.0001)))

    def _order(self, side: str, price: int, order_type: str) -> Iterator[str]:
        who, lots = self._draws.choice(self.traders), self._geometric(self.parameters.size)
        self._client += 1
        if order_type == 'limit':
            self._placed.append((who, self._client))
        price = max(1, price)
        # What a bid may use covers its price and the highest fee.
        quote = price * lots * self.parameters.pc_lot * 10_100 // 10_000 + 1
        yield rows.new_order(who, side=side, price=price, lots=lots, pc=quote if side == 'bid' else None, order_type=order_type,
                             self_trade='cancel', client=self._client)

    def _limit(self) -> Iterator[str]:
        side, away = self._side(), self._geometric(self.parameters.spread)
        yield from self._order(side, round(self.fair) + (-away if side == 'bid' else away), 'limit')

    def _take(self) -> Iterator[str]:
        side = self._side()
        through = 3 * round(self.parameters.spread)
        yield from self._order(side, round(self.fair) + (through if side == 'bid' else -through), 'ioc')

    def _informed(self, depth: Depth) -> Iterator[str]:
        edge = self.parameters.edge
        if depth.asks and depth.asks[0].price < self.fair - edge:
            yield from self._order('bid', int(self.fair - edge), 'ioc')
        elif depth.bids and depth.bids[0].price > self.fair + edge:
            yield from self._order('ask', math.ceil(self.fair + edge), 'ioc')

    def _cancel(self) -> Iterator[str]:
        at = int(self._draws.random() * len(self._placed))
        self._placed[at], self._placed[-1] = self._placed[-1], self._placed[at]
        who, client = self._placed.pop()
        yield rows.cancel(who, client)

    def _side(self) -> str:
        return 'bid' if self._draws.random() < 0.5 else 'ask'
