"""What the accounts of a dump say: mints, wallets, and markets with their book, pending events and open-orders accounts.

The places of fields are those of tables.py. Accounts that a command wrote, or that were audited, are in order, so nothing is
tested here.
"""

from __future__ import annotations

import csv
import io
import struct
from base64 import b64decode
from collections.abc import Iterable, Iterator
from dataclasses import dataclass
from functools import cached_property

from .addresses import address_at, address_of
from .tables import PLACES, SIZES

LOW = 2**64 - 1
MARKET, ORDERS, QUEUE, EVENT = (PLACES[name] for name in ('market', 'open_orders', 'event_queue', 'event'))
SLAB, INNER, LEAF, WALLET, MINT = (PLACES[name] for name in ('slab', 'inner_node', 'leaf_node', 'token_account', 'mint'))
# A node of a side: its tag, the two halves of an order's id, the lots. The upper half is the price. Tag 2 is an order's.
NODE, ORDER = struct.Struct('<I4xQQ32xQ8x'), 2
FIRST_NODE = SIZES['slab']
KINDS = {1: 'taker fill', 9: 'maker fill', 2: 'out', 18: 'releasing out'}
BID = 4


def number_at(data: bytes, place: int, length: int = 8) -> int:
    """The number in some bytes from a place on."""
    return int.from_bytes(data[place:place + length], 'little')


def rows_of(dump: bytes) -> Iterator[list[str]]:
    """The rows of a dump, of which fields may stand in quotes, without its byte-order mark and lines that are empty."""
    if b'"' not in dump:
        return (line.split(',') for line in dump.decode('utf-8-sig').splitlines() if line)
    # A side's account is longer than the limit that `csv` begins with.
    csv.field_size_limit(max(csv.field_size_limit(), len(dump)))
    return filter(None, csv.reader(io.StringIO(dump.decode('utf-8-sig'), newline='')))


@dataclass(frozen=True, slots=True)
class Mint:
    """A token: its address, how much of it there is in native units, and how many decimals a whole token has."""

    address: str
    supply: int
    decimals: int


@dataclass(frozen=True, slots=True)
class Order:
    """An order that rests on a side of a book.

    `price` is in pc lots a coin lot, `lots` in coin lots; `sequence` tells the age, lower being older; `account` is the open-orders
    account, `slot` its place there, `client` the id that the trader gave, `tier` the fee tier.
    """

    id: int
    price: int
    lots: int
    sequence: int
    account: str
    slot: int
    client: int
    tier: int


@dataclass(frozen=True, slots=True)
class Level:
    """All orders of one price: the price in pc lots a coin lot, the coin lots that rest there, and how many orders, or None where
    that is not told (by a `Desk`)."""

    price: int
    lots: int
    orders: int | None


@dataclass(frozen=True, slots=True)
class Depth:
    """The levels of both sides, the best first."""

    bids: tuple[Level, ...]
    asks: tuple[Level, ...]


@dataclass(frozen=True, slots=True)
class Event:
    """A pending event, which a crank will pay or release to an account.

    `kind` is `taker fill`, `maker fill`, `out` or `releasing out`; `is_bid` tells the order's side. `released`, `paid` and `fee` are
    native amounts: what the account gets, what it gave, and the fee (of a taker) or rebate (of a maker).
    """

    kind: str
    is_bid: bool
    order: int
    account: str
    slot: int
    released: int
    paid: int
    fee: int
    client: int
    tier: int


@dataclass(frozen=True, slots=True)
class OpenOrders:
    """A trader's account on a market: `state` is `blank`, `open` or `closed`.

    `coin_free` and `pc_free` can be settled, `coin_total` and `pc_total` are these and what orders lock; all native. `slots` are the
    ids of its orders by slot.
    """

    address: str
    state: str
    owner: str
    coin_free: int
    coin_total: int
    pc_free: int
    pc_total: int
    referrer_rebates: int
    slots: dict[int, int]


@dataclass(frozen=True, slots=True)
class Wallet:
    """A token account: the mint of its token, the person whose it is, and the native amount."""

    address: str
    mint: str
    owner: str
    amount: int


Field = str | bytes | bytearray | memoryview


def decoded(field: Field, most: int | None = None) -> bytes:
    """The bytes of an account, or so many of them from its front: of its text in base64, or as they are."""
    if not isinstance(field, str):
        return bytes(field if most is None else field[:most])
    return b64decode(field) if most is None else b64decode(field[:-(-most // 3) * 4])[:most]


def mint_of(fields: list[Field]) -> Mint:
    """What a mint's row says."""
    data = decoded(fields[1])
    return Mint(address_of(fields[0]), number_at(data, MINT['supply']), data[MINT['decimals']])


def wallet_of(fields: list[Field]) -> Wallet:
    """What a wallet's row says."""
    data = decoded(fields[1])
    mint, owner = (address_at(data, WALLET[name]) for name in ('mint', 'owner'))
    return Wallet(address_of(fields[0]), mint, owner, number_at(data, WALLET['amount']))


def orders_of(address: str, data: bytes) -> OpenOrders:
    """What an open-orders account says."""
    free = number_at(data, ORDERS['free_slot_bits'], 16)
    is_blank = not any(data)
    slots = {} if is_blank else {slot: number_at(data, ORDERS['orders'] + 16 * slot, 16) for slot in range(128) if not free >> slot & 1}
    state = {0: 'blank', 5: 'open'}.get(number_at(data, ORDERS['account_flags']), 'closed')
    coin_free, coin_total, pc_free, pc_total, rebates = (number_at(data, ORDERS[name]) for name in (
        'native_coin_free', 'native_coin_total', 'native_pc_free', 'native_pc_total', 'referrer_rebates_accrued'))
    return OpenOrders(address, state, address_at(data, ORDERS['owner']), coin_free, coin_total, pc_free, pc_total, rebates, slots)


def side_of(data: bytes, is_bid: bool) -> tuple[Order, ...]:
    """The orders of a side, best first."""
    open_nodes = [number_at(data, SLAB['root_node'], 4)] if number_at(data, SLAB['leaf_count']) else []
    found = []
    while open_nodes:
        base = SIZES['slab'] + SIZES['inner_node'] * open_nodes.pop()
        if number_at(data, base, 4) == 1:
            open_nodes += (number_at(data, base + INNER[name], 4) for name in ('first_child', 'second_child'))
            continue
        key = number_at(data, base + LEAF['key'], 16)
        low = key & LOW
        found.append(Order(
            id=key, price=key >> 64, lots=number_at(data, base + LEAF['quantity']), sequence=LOW - low if is_bid else low,
            account=address_at(data, base + LEAF['owner']), slot=data[base + LEAF['owner_slot']],
            client=number_at(data, base + LEAF['client_order_id']), tier=data[base + LEAF['fee_tier']],
        ))
    return tuple(sorted(found, key=lambda order: order.id, reverse=is_bid))


def event_at(data: bytes, base: int) -> Event:
    """The event from a place on."""
    flags = data[base + EVENT['flags']]
    names = 'native_qty_released', 'native_qty_paid', 'native_fee_or_rebate'
    released, paid, fee = (number_at(data, base + EVENT[name]) for name in names)
    return Event(
        kind=KINDS[flags & ~BID], is_bid=bool(flags & BID), order=number_at(data, base + EVENT['order_id'], 16),
        account=address_at(data, base + EVENT['owner']), slot=data[base + EVENT['owner_slot']], released=released, paid=paid, fee=fee,
        client=number_at(data, base + EVENT['client_order_id']), tier=data[base + EVENT['fee_tier']],
    )


def events_of(data: bytes) -> tuple[Event, ...]:
    """The pending events, the first to be consumed first."""
    size, front = SIZES['event'], SIZES['event_queue']
    capacity = (len(data) - front - len(b'padding')) // size
    head, count = number_at(data, QUEUE['head']), number_at(data, QUEUE['count'])
    return tuple(event_at(data, front + size * ((head + place) % capacity)) for place in range(count))


def levels_of(side: Field, is_bid: bool) -> tuple[Level, ...]:
    """The levels of a side, best first, from its account. Only nodes that were ever used are read."""
    used = number_at(decoded(side, FIRST_NODE), SLAB['bump_index'])
    nodes = decoded(side, FIRST_NODE + used * NODE.size)[FIRST_NODE:]
    lots_at: dict[int, int] = {}
    orders_at: dict[int, int] = {}
    for tag, _, price, lots in NODE.iter_unpack(nodes):
        if tag == ORDER:
            lots_at[price] = lots_at.get(price, 0) + lots
            orders_at[price] = orders_at.get(price, 0) + 1
    return tuple(Level(price, lots_at[price], orders_at[price]) for price in sorted(lots_at, reverse=is_bid))


class Market:
    """A market: its words, its book, its pending events and its traders' accounts, each read when it is asked for.

    Its journal, of a report alone, is the entries of all rows on it in their order.
    """

    def __init__(self, address: str, authority: str, fields: list[Field]) -> None:
        self.address = address
        self.authority = authority
        self._fields = fields
        self._orders: list[tuple[str, Field]] = []
        self._lines: list[str] = []

    def __repr__(self) -> str:
        return f'Market({self.address!r}, {len(self.bids)} bids, {len(self.asks)} asks, {len(self.events)} events)'

    @cached_property
    def data(self) -> bytes:
        """The bytes of the market's own account."""
        return decoded(self._fields[0])

    @cached_property
    def coin_mint(self) -> str:
        """The mint of base."""
        return address_at(self.data, MARKET['coin_mint'])

    @cached_property
    def pc_mint(self) -> str:
        """The mint of quote."""
        return address_at(self.data, MARKET['pc_mint'])

    @cached_property
    def coin_lot(self) -> int:
        """How many native units of base a coin lot is."""
        return number_at(self.data, MARKET['coin_lot_size'])

    @cached_property
    def pc_lot(self) -> int:
        """How many native units of quote a pc lot is."""
        return number_at(self.data, MARKET['pc_lot_size'])

    @cached_property
    def fee_rate_bps(self) -> int:
        """The market's fee rate as its account has it, in basis points."""
        return number_at(self.data, MARKET['fee_rate_bps'])

    @cached_property
    def pc_fees(self) -> int:
        """The fees that can be swept, in native quote."""
        return number_at(self.data, MARKET['pc_fees_accrued'])

    @cached_property
    def coin_vault(self) -> int:
        """What the vault of base holds, native."""
        return number_at(decoded(self._fields[1]), WALLET['amount'])

    @cached_property
    def pc_vault(self) -> int:
        """What the vault of quote holds, native."""
        return number_at(decoded(self._fields[2]), WALLET['amount'])

    @cached_property
    def is_disabled(self) -> bool:
        """Whether the market takes no orders any more."""
        return number_at(self.data, MARKET['account_flags']) == 131

    @cached_property
    def events(self) -> tuple[Event, ...]:
        """The pending events, the first to be consumed first."""
        return events_of(decoded(self._fields[4]))

    @cached_property
    def bids(self) -> tuple[Order, ...]:
        """The resting bids, best first."""
        return side_of(decoded(self._fields[5]), True)

    @cached_property
    def asks(self) -> tuple[Order, ...]:
        """The resting asks, best first."""
        return side_of(decoded(self._fields[6]), False)

    @cached_property
    def depth(self) -> Depth:
        """The levels of both sides, best first."""
        return Depth(levels_of(self._fields[5], True), levels_of(self._fields[6], False))

    @cached_property
    def open_orders(self) -> dict[str, OpenOrders]:
        """The open-orders accounts by their addresses."""
        return {address: orders_of(address, decoded(data)) for address, data in self._orders}


def rows_by_kind(rows: Iterable[list[Field]]) -> dict[str, list[list[Field]]]:
    """The rows of a dump by their kinds, each from its address on."""
    found: dict[str, list[list[Field]]] = {kind: [] for kind in ('dump', 'mint', 'srm', 'msrm', 'wallet', 'market', 'orders', 'enddump')}
    for kind, *fields in rows:
        found[kind].append(fields)
    return found


class Accounts:
    """All accounts of a dump: `mints`, `wallets` and `markets` by their addresses, and the mints of SRM and MSRM where they are named.
    Each kind is read when it is asked for."""

    def __init__(self, dump: bytes) -> None:
        self.text = dump

    @cached_property
    def _rows(self) -> dict[str, list[list[Field]]]:
        """The rows by their kinds, each from its address on."""
        return rows_by_kind(rows_of(self.text))

    @cached_property
    def mints(self) -> dict[str, Mint]:
        """The tokens."""
        return {made.address: made for made in map(mint_of, self._rows['mint'])}

    @cached_property
    def wallets(self) -> dict[str, Wallet]:
        """The token accounts that are no vaults."""
        return {made.address: made for made in map(wallet_of, self._rows['wallet'])}

    @cached_property
    def markets(self) -> dict[str, Market]:
        """The markets."""
        found = {address_of(word): Market(address_of(word), address_of(authority), parts) for word, authority, *parts in self._rows['market']}
        for market, account, data in self._rows['orders']:
            found[address_of(market)]._orders.append((address_of(account), data))
        return found

    @property
    def srm(self) -> str | None:
        """The mint of SRM, where it is named."""
        return next((address_of(mint) for mint, in self._rows['srm']), None)

    @property
    def msrm(self) -> str | None:
        """The mint of MSRM, where it is named."""
        return next((address_of(mint) for mint, in self._rows['msrm']), None)
