"""Putting idle accounts together: open-orders accounts and wallets that no order, slot or event is of, into made ones of the same sums."""

from __future__ import annotations

from dataclasses import dataclass, field
from typing import Callable, Iterator

from bridge.accounts import read_address
from bridge.encoding import address_of, base64_text, dump_word
from bridge.files import is_json_text, json_files, name_of, read_bytes
from bridge.layouts import address_at, bytes_at, number_at
from bridge.making import rest_name, rest_wallet
from bridge.queues import pending_events
from bridge.refusals import Refusal
from bridge.sides import Broken, Side, orders_of
from bridge.snapshot import Held, Market, Snapshot, flags_of, holds_nothing, is_blank, is_closed
from bridge.tables import INITIALIZED, KIND_FLAGS, LAYOUTS, SIZES
from bridge.transactions import transactions_of_text

_BOUND = 2**64
_FUNDS = ("native_coin_free", "native_pc_free", "referrer_rebates_accrued")
_PLACES = {place.name: place.place for place in LAYOUTS["open_orders"]}
_NO_SLOTS = bytes([255]) * 16
_TEXTS = (b"serum", b"padding")


@dataclass
class Merged:
    """What was merged: the rows of a dump that went, each with the made account that it went into (`-`: into none); and how many
    accounts of each kind."""

    rows: list[str] = field(default_factory=list)
    counts: dict[str, int] = field(default_factory=dict)

    def add(self, kind: str, made: str, row: str) -> None:
        """Adds an account that went."""
        self.rows.append(f"{made},{row}")
        self.counts[kind] = self.counts.get(kind, 0) + 1

    def notes(self) -> list[str]:
        """How many were merged, in one line."""
        told = ", ".join(f"{count} {kind}" for kind, count in self.counts.items())
        return [f"merged: {told}; audit and replay see their sums"] if told else ["merged: nothing is idle"]


def read_kept(paths: list[str]) -> set[bytes]:
    """The addresses to be kept: all that transactions name, or the last word of each line of a text."""
    kept: set[bytes] = set()
    for path in (file for given in paths for file in json_files(given)):
        data = read_bytes(path)
        if is_json_text(data):
            kept.update(address for one in transactions_of_text(data, name_of(path)) for call in one.calls for address in call.accounts)
            continue
        try:
            lines = data.decode("utf-8-sig").splitlines()
        except UnicodeDecodeError:
            raise Refusal(name_of(path), "it is no text", "give transactions as JSON, or an address a line") from None
        kept.update(read_address(line.split()[-1], f"{name_of(path)}: line {number}") for number, line in enumerate(lines, 1) if line.split())
    return kept


def _owners_of(side: bytes, accounts: set[bytes]) -> set[bytes]:
    """The accounts that orders of a side are of; where its tree is broken, all that stand in its bytes anywhere."""
    try:
        return {order.owner for order in orders_of(Side(side))}
    except Broken:
        return {account for account in accounts if account in side}


def _active(market: Market) -> set[bytes]:
    """The accounts of which an order rests or an event waits."""
    accounts = {held.address for held in market.orders}
    active = {address_at("event", "owner", event) for event in pending_events(market.parts["event_q"])}
    return active.union(*(_owners_of(market.parts[side], accounts) for side in ("bids", "asks")))


def _is_whole(data: bytes) -> bool:
    """Whether an open-orders account has the texts at both ends."""
    return data.startswith(_TEXTS[0]) and data.endswith(_TEXTS[1])


def _is_idle(market: Market, held: Held) -> bool:
    """Whether an open-orders account has no slot taken, and nothing is in it that an audit could find: all its funds are free, and
    its flags, its texts and its market are as they have to be. One that was never opened or is closed holds nothing."""
    data = held.data
    if is_blank(data) or (is_closed(data) and _is_whole(data) and holds_nothing(data)):
        return True
    is_free = all(number_at("open_orders", f"native_{token}_free", data) == number_at("open_orders", f"native_{token}_total", data)
                  for token in ("coin", "pc"))
    is_plain = flags_of(data) == INITIALIZED + KIND_FLAGS["open_orders"] and _is_whole(data)
    return is_free and is_plain and bytes_at("open_orders", "free_slot_bits", data) == _NO_SLOTS \
        and address_at("open_orders", "market", data) == market.address


def _made_account(market: Market, funds: tuple[int, ...]) -> bytes:
    """An open-orders account of the sums, owned by `idle`."""
    data = bytearray(SIZES["open_orders"].least)
    data[:5], data[-7:] = _TEXTS
    numbers = {"account_flags": INITIALIZED + KIND_FLAGS["open_orders"], "native_coin_free": funds[0], "native_coin_total": funds[0],
               "native_pc_free": funds[1], "native_pc_total": funds[1], "referrer_rebates_accrued": funds[2]}
    for name, number in numbers.items():
        data[_PLACES[name] : _PLACES[name] + 8] = number.to_bytes(8, "little")
    for name, value in (("market", market.address), ("owner", address_of("idle")), ("free_slot_bits", _NO_SLOTS)):
        data[_PLACES[name] : _PLACES[name] + len(value)] = value
    return bytes(data)


@dataclass
class _Heap:
    """Accounts that go into one made account, and the sums of their amounts."""

    accounts: list[Held]
    sums: tuple[int, ...]


def _heaps(accounts: list[Held], amounts_of: Callable[[bytes], tuple[int, ...]]) -> list[_Heap]:
    """Accounts in heaps of which no sum passes 64 bits."""
    heaps: list[_Heap] = []
    for held in accounts:
        amounts = amounts_of(held.data)
        sums = tuple(one + other for one, other in zip(heaps[-1].sums, amounts)) if heaps else (_BOUND,)
        if max(sums) < _BOUND:
            heaps[-1].accounts.append(held)
            heaps[-1].sums = sums
        else:
            heaps.append(_Heap([held], amounts))
    return heaps


def _names(first: str) -> Iterator[str]:
    """The names of made accounts: the first, and numbered ones behind it."""
    yield first
    number = 1
    while True:
        yield f"{first}_{number}"
        number += 1


def _check_free(snapshot: Snapshot, name: str, gone: set[bytes]) -> bytes:
    """The address of a made account, which no other may have."""
    address = address_of(name)
    taken = {entry.address for entry in snapshot.entries()} | {market.part_address(part) for market in snapshot.markets for part in market.parts}
    if address in taken - gone:
        raise Refusal(f"account {name}", "an account has this name already, under which idle ones would be put together", "leave out --merge-idle")
    return address


def _funds(data: bytes) -> tuple[int, ...]:
    """What an idle account has: base, quote, and its referrer part. One that is not open counts as one without."""
    if is_blank(data) or is_closed(data):
        return (0,) * len(_FUNDS)
    return tuple(number_at("open_orders", name, data) for name in _FUNDS)


def _orders_row(market: Market, held: Held) -> str:
    """The row of an open-orders account."""
    return f"orders,{dump_word(market.address)},{dump_word(held.address)},{base64_text(held.data)}"


def _merge_orders(snapshot: Snapshot, place: int, kept: set[bytes], merged: Merged) -> None:
    """Merges the idle open-orders accounts of a market. One alone stays, and those that hold nothing go into no account."""
    market = snapshot.markets[place]
    busy = _active(market) | kept
    idle = [held for held in market.orders if held.address not in busy and _is_idle(market, held)]
    empty = [held for held in idle if not any(_funds(held.data))]
    full = [held for held in idle if any(_funds(held.data))]
    gone = {held.address for held in empty + (full if len(full) > 1 else [])}
    made = []
    for name, heap in zip(_names(f"idle_{place}"), _heaps(full, _funds) if len(full) > 1 else []):
        made.append(Held(_check_free(snapshot, name, gone), _made_account(market, heap.sums)))
        for held in heap.accounts:
            merged.add("open-orders accounts", name, _orders_row(market, held))
    for held in empty:
        merged.add("open-orders accounts that hold nothing", "-", _orders_row(market, held))
    market.orders = [held for held in market.orders if held.address not in gone] + made


def _amount(data: bytes) -> tuple[int, ...]:
    """What a wallet holds."""
    return (number_at("token_account", "amount", data),)


def _is_plain(held: Held, mint: Held) -> bool:
    """Whether a wallet is one of a mint, with nothing behind its amount that another has not."""
    made = rest_wallet(mint.address, *_amount(held.data))
    return held.data[:32] == mint.address and held.data[64:] == made[64:]


def _merge_wallets(snapshot: Snapshot, place: int, kept: set[bytes], merged: Merged) -> None:
    """Merges the wallets of a mint. One alone stays."""
    mint = snapshot.mints[place]
    idle = [held for held in snapshot.wallets if held.address not in kept and _is_plain(held, mint)]
    if len(idle) < 2:
        return
    gone = {held.address for held in idle}
    made = []
    for name, heap in zip(_names(rest_name(place)), _heaps(idle, _amount)):
        made.append(Held(_check_free(snapshot, name, gone), rest_wallet(mint.address, heap.sums[0])))
        for held in heap.accounts:
            merged.add("wallets", name, f"wallet,{dump_word(held.address)},{base64_text(held.data)}")
    snapshot.wallets = [held for held in snapshot.wallets if held.address not in gone] + made


def merge_idle(snapshot: Snapshot, kept: set[bytes]) -> Merged:
    """Merges the idle accounts of a snapshot, those aside that are to be kept."""
    merged = Merged()
    for place in range(len(snapshot.markets)):
        _merge_orders(snapshot, place, kept, merged)
    for place in range(len(snapshot.mints)):
        _merge_wallets(snapshot, place, kept, merged)
    return merged
