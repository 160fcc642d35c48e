"""What subscribers are told: each trade, and the best prices of each market.

Lines are `trade MARKET ROW SIDE LOTS QUOTE` (the taker's side, the coin lots that filled, what they cost or brought in native quote) and
`top MARKET bid PRICE LOTS .. ask PRICE LOTS ..`, the best price of each side first, ten at most.
"""

from __future__ import annotations

from collections import deque
from typing import Protocol

SHOWN, KEPT = 10, 50


class Subscriber(Protocol):
    """Who is told lines."""

    def tell(self, lines: list[bytes]) -> None: ...


def top_line(market: bytes, answer: list[bytes]) -> bytes:
    """The line of a market's best prices, from what `book` is answered."""
    sides: dict[bytes, list[bytes]] = {b'bid': [b'bid'], b'ask': [b'ask']}
    for line in answer[1:-1]:
        side, price, lots = line.split(b' ')
        sides[side] += [price, lots]
    return b' '.join([b'top', market, *sides[b'bid'], *sides[b'ask']]) + b'\n'


class Feed:
    """Subscribers, and what a new one is told first: how each market stands, and the last trades."""

    def __init__(self) -> None:
        self.subscribers: set[Subscriber] = set()
        self._tops: dict[bytes, bytes] = {}
        self._trades: deque[bytes] = deque(maxlen=KEPT)

    def add(self, subscriber: Subscriber) -> None:
        """Adds a subscriber."""
        self.subscribers.add(subscriber)
        subscriber.tell([*self._tops.values(), *self._trades])

    def tell(self, trades: list[bytes], tops: dict[bytes, bytes]) -> None:
        """Tells what is new."""
        new = [top for market, top in tops.items() if self._tops.get(market) != top]
        self._tops.update(tops)
        self._trades.extend(trades)
        if trades or new:
            for subscriber in list(self.subscribers):
                subscriber.tell([*trades, *new])
