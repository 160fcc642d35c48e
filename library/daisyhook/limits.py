"""How much a dump and a script may hold."""

from __future__ import annotations

from dataclasses import dataclass


@dataclass(frozen=True)
class Limits:
    """The most that is read: mints, wallets, markets, open-orders accounts of a market, instruction rows, bytes of
    input.

    There are two, `STANDARD` and `WIDE`; `suffix` ends the names of the library's functions that keep to them.
    """

    mints: int
    wallets: int
    markets: int
    orders: int
    rows: int
    input_bytes: int
    suffix: str


STANDARD = Limits(16, 256, 16, 64, 100_000, 67_108_864, '')
WIDE = Limits(256, 65_535, 256, 65_535, 2**32 - 1, 2**40, '_wide')
