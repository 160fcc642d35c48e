"""What a dump holds: mints, wallets, and markets with their vaults, queues, sides and open-orders accounts."""

from __future__ import annotations

from dataclasses import dataclass, field
from typing import Iterator, NamedTuple, Optional

from bridge.layouts import address_at, bytes_at, number_at
from bridge.tables import CLOSED, KIND_FLAGS, SIZES

PARTS = ("coin_vault", "pc_vault", "req_q", "event_q", "bids", "asks")
VAULTS = ("coin_vault", "pc_vault")
FLAGS_PLACE = 5
_FUNDS = ("native_coin_free", "native_coin_total", "native_pc_free", "native_pc_total", "referrer_rebates_accrued")


class Held(NamedTuple):
    """An account's address and bytes."""

    address: bytes
    data: bytes


class Entry(NamedTuple):
    """An account of a snapshot with what it is, in the order in which a dump has it."""

    kind: str
    address: bytes
    data: bytes


@dataclass
class Market:
    """A market with the accounts that belong to it; `parts` by the names of the market's own words."""

    address: bytes
    authority: bytes
    data: bytes
    parts: dict[str, bytes]
    orders: list[Held] = field(default_factory=list)

    def part_address(self, part: str) -> bytes:
        """The address of a vault, queue or side, as the market account names it."""
        return address_at("market", part, self.data)

    def entries(self) -> Iterator[Entry]:
        """The market's accounts, in the order of a dump."""
        yield Entry("market", self.address, self.data)
        for part in PARTS:
            if part in self.parts:
                yield Entry(part, self.part_address(part), self.parts[part])
        for held in self.orders:
            yield Entry("open_orders", held.address, held.data)


@dataclass
class Snapshot:
    """All accounts of a dump, in its order."""

    mints: list[Held] = field(default_factory=list)
    srm: Optional[bytes] = None
    msrm: Optional[bytes] = None
    wallets: list[Held] = field(default_factory=list)
    markets: list[Market] = field(default_factory=list)

    def entries(self) -> Iterator[Entry]:
        """All accounts, in the order of a dump."""
        for held in self.mints:
            yield Entry("mint", held.address, held.data)
        for held in self.wallets:
            yield Entry("wallet", held.address, held.data)
        for market in self.markets:
            yield from market.entries()


def length_fault(kind: str, data: bytes) -> Optional[str]:
    """What is wrong with an account's length, if anything."""
    size = SIZES[kind]
    if size.most is None and len(data) < size.least:
        return f"it has {len(data)} bytes, and the least that one of its kind ({kind}) has is {size.least}"
    if size.most is not None and len(data) != size.least:
        return f"it has {len(data)} bytes, and one of its kind ({kind}) has {size.least}"
    return None


def flags_of(data: bytes) -> int:
    """The account flags of an account of the program; 0 where it is too short for any."""
    return int.from_bytes(data[FLAGS_PLACE : FLAGS_PLACE + 8], "little")


def is_blank(data: bytes) -> bool:
    """Whether an open-orders account was never opened: all its bytes are zero."""
    return len(data) == SIZES["open_orders"].least and not any(data)


def is_closed(data: bytes) -> bool:
    """Whether an open-orders account was closed."""
    return len(data) == SIZES["open_orders"].least and flags_of(data) == CLOSED


def holds_nothing(data: bytes) -> bool:
    """Whether an open-orders account has neither funds nor orders, as one that was closed."""
    has_funds = any(number_at("open_orders", name, data) for name in _FUNDS)
    return not has_funds and bytes_at("open_orders", "free_slot_bits", data) == bytes([255]) * 16


def kind_by_flags(data: bytes) -> Optional[str]:
    """What an account of the program says of itself by its flags, where they name one kind."""
    flags = flags_of(data)
    kinds = [kind for kind, flag in KIND_FLAGS.items() if flags & flag]
    return kinds[0] if len(kinds) == 1 else None
