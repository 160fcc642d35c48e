"""The accounts of a dump as bytes in memory: what instructions act on in place, and what a step by them leaves."""

from __future__ import annotations

from base64 import b64encode
from collections.abc import Iterable, Iterator
from functools import cached_property

from .accounts import Accounts, Field, decoded, rows_by_kind
from .addresses import address_bytes, address_of
from .tables import SIZES

PARTS = 'market', 'coin_vault', 'pc_vault', 'requests', 'events', 'bids', 'asks'
ACCOUNT = SIZES['open_orders']
RECORD = 32 + ACCOUNT


class HeldMarket:
    """A market's accounts: `parts` by name; `orders`, all its open-orders accounts one after another, each behind
    its address; and which of them each address is."""

    def __init__(self, address: str, authority: str, parts: dict[str, bytearray], orders: bytearray,
                 places: dict[str, int]) -> None:
        self.address, self.authority, self.parts, self.orders, self.places = address, authority, parts, orders, places

    def copy(self) -> HeldMarket:
        """A copy of these accounts."""
        parts = {name: bytearray(part) for name, part in self.parts.items()}
        return HeldMarket(self.address, self.authority, parts, bytearray(self.orders), self.places)

    def account(self, address: str) -> memoryview:
        """The bytes of an open-orders account. KeyError where there is none of this address."""
        base = RECORD * self.places[address] + 32
        return memoryview(self.orders)[base:base + ACCOUNT]


class Held:
    """All accounts of a dump. `markets` and `wallets` are by address, `fronts` the rows of the dump without what is
    held here."""

    def __init__(self, dump: Accounts) -> None:
        rows = dump._rows
        self.fronts: list[list[str]] = [['dump']]
        self.fronts += (['mint', address_of(word), text_of(data)] for word, data in rows['mint'])
        self.fronts += ([name, address_of(word)] for name in ('srm', 'msrm') for word, in rows[name])
        self.fronts += (['wallet', address_of(word)] for word, _ in rows['wallet'])
        self.wallets = {address_of(word): bytearray(decoded(data)) for word, data in rows['wallet']}
        orders: dict[str, list[tuple[str, Field]]] = {}
        for market, account, data in rows['orders']:
            orders.setdefault(address_of(market), []).append((address_of(account), data))
        self.markets = {}
        for word, authority, *fields in rows['market']:
            address = address_of(word)
            self.markets[address] = held_market(address, address_of(authority), fields, orders.get(address, []))
            self.fronts.append(['market', address, address_of(authority)])
            self.fronts += (['orders', address, account] for account in self.markets[address].places)
        self.fronts.append(['enddump'])
        self.srm, self.msrm = dump.srm, dump.msrm

    def copy(self, markets: Iterable[str], wallets: Iterable[str]) -> Held:
        """All accounts, of which these markets and wallets are copies."""
        made = Held.__new__(Held)
        made.__dict__.update(self.__dict__)
        made.markets = {**self.markets, **{address: self.markets[address].copy() for address in markets}}
        made.wallets = {**self.wallets, **{address: bytearray(self.wallets[address]) for address in wallets}}
        return made

    def has_wallets(self, words: Iterable[str | None]) -> bool:
        """Whether each address of some that are named is a wallet's."""
        return all(word is None or word in self.wallets for word in words)

    def rows(self) -> Iterator[list[Field]]:
        """The rows of the dump, with the bytes of accounts where that has base64."""
        for front in self.fronts:
            if front[0] == 'wallet':
                yield [*front, self.wallets[front[1]]]
            elif front[0] == 'market':
                yield [*front, *self.markets[front[1]].parts.values()]
            elif front[0] == 'orders':
                yield [*front, self.markets[front[1]].account(front[2])]
            else:
                yield list(front)

    def dump(self) -> bytes:
        """The dump."""
        return ''.join(','.join(map(text_of, row)) + '\n' for row in self.rows()).encode()


class HeldAccounts(Accounts):
    """What accounts in memory say: read from them, and the dump's text only where it is asked for."""

    def __init__(self, held: Held) -> None:
        self._held = held

    @cached_property
    def text(self) -> bytes:
        """The dump."""
        return self._held.dump()

    @cached_property
    def _rows(self) -> dict[str, list[list[Field]]]:
        """The rows by their kinds, each from its address on."""
        return rows_by_kind(self._held.rows())


def text_of(field: Field) -> str:
    """A field of a dump's row as it stands there."""
    return field if isinstance(field, str) else b64encode(field).decode()


def held_market(address: str, authority: str, fields: list[Field], orders: list[tuple[str, Field]]) -> HeldMarket:
    """A market's accounts, of what its rows have."""
    parts = {name: bytearray(decoded(field)) for name, field in zip(PARTS, fields, strict=True)}
    records = bytearray(b''.join(address_bytes(account) + decoded(data) for account, data in orders))
    return HeldMarket(address, authority, parts, records, {account: place for place, (account, _) in enumerate(orders)})
