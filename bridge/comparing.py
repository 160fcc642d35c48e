"""Comparing two snapshots, account by account and field by field, by what the accounts mean."""

from __future__ import annotations

import os
from dataclasses import dataclass, field
from typing import Iterator, NamedTuple, Optional

from bridge.accounts import Account, accounts_of_text, by_address, read_accounts
from bridge.dump_text import read_dump
from bridge.encoding import shown
from bridge.files import STANDARD_INPUT, is_json_text, name_of, read_bytes
from bridge.layouts import address_at, field_differences
from bridge.making import rest_name, rest_wallet
from bridge.queues import Difference, event_queue_differences
from bridge.sides import side_differences
from bridge.snapshot import PARTS, Entry, Snapshot, flags_of, holds_nothing, is_blank, is_closed, kind_by_flags, length_fault
from bridge.tables import NATIVE_MINT, SIZES, TOKEN_PROGRAM

_END_TEXT = 7
_WITH_END_TEXT = ("req_q", "event_q", "bids", "asks")
_MOST_REST = 256
_PLAIN = "0x" + "00" * 12


class Key(NamedTuple):
    """What an account is known by: its address, or its market's with the part that it is of it."""

    address: bytes
    part: str


@dataclass
class Compared:
    """One of two inputs: its accounts in order, the words that are no account's, and whether they are a ledger's or a dump's."""

    entries: dict[Key, Entry] = field(default_factory=dict)
    words: dict[str, str] = field(default_factory=dict)
    is_ledgers: bool = False

    def add(self, key: Key, entry: Entry) -> None:
        """Adds an account."""
        self.entries[key] = entry


def compared_of(snapshot: Snapshot) -> Compared:
    """A dump or report, to be compared."""
    compared = Compared()
    for held in snapshot.mints:
        compared.add(Key(held.address, ""), Entry("mint", held.address, held.data))
    for held in snapshot.wallets:
        compared.add(Key(held.address, ""), Entry("wallet", held.address, held.data))
    for market in snapshot.markets:
        for entry in market.entries():
            part = entry.kind if entry.kind in PARTS else ""
            compared.add(Key(market.address if part else entry.address, part), entry)
        compared.words[f"market {shown(market.address)} authority"] = shown(market.authority)
        for held in market.orders:
            compared.words[f"open_orders {shown(held.address)} market_of_row"] = shown(market.address)
    for name, mint in (("srm", snapshot.srm), ("msrm", snapshot.msrm)):
        compared.words[name] = shown(mint) if mint is not None else "-"
    return compared


def _markets_of(accounts: dict[bytes, Account]) -> list[Account]:
    """The markets among accounts."""
    return [account for account in accounts.values() if account.owner != TOKEN_PROGRAM and length_fault("market", account.data) is None]


def _kind_of(account: Account) -> str:
    """What an account is by its owner, length and flags, where no market names it."""
    if account.owner == TOKEN_PROGRAM:
        kinds = [kind for kind in ("mint", "wallet") if length_fault(kind, account.data) is None]
    else:
        by_flags = kind_by_flags(account.data)
        kinds = [kind for kind in ("market", "open_orders") if length_fault(kind, account.data) is None]
        kinds += [by_flags] if by_flags is not None and length_fault(by_flags, account.data) is None else []
    if not kinds:
        raise account.fault(f"{len(account.data)} bytes with flags {flags_of(account.data)} are no layout's", "leave its file out")
    return kinds[0]


def compared_accounts(accounts: dict[bytes, Account]) -> Compared:
    """Accounts of a ledger, to be compared."""
    compared = Compared(is_ledgers=True)
    parts = {address_at("market", part, market.data): Key(market.address, part) for market in _markets_of(accounts) for part in PARTS}
    for account in accounts.values():
        key = parts.get(account.address)
        kind = key.part if key is not None else _kind_of(account)
        wrong = length_fault(kind, account.data)
        if wrong:
            raise account.fault(f"a length that is not the layout's: {wrong}", "get the whole account")
        compared.add(key or Key(account.address, ""), Entry(kind, account.address, account.data))
    return compared


def read_compared(path: str) -> Compared:
    """What a path names: a dump, a report, a file of account JSON, or a folder of such files."""
    if path != STANDARD_INPUT and os.path.isdir(path):
        return compared_accounts(read_accounts([path]))
    data = read_bytes(path)
    if is_json_text(data):
        return compared_accounts(by_address(accounts_of_text(data, name_of(path))))
    return compared_of(read_dump(data, name_of(path)))


_REST_NAMES = frozenset(rest_name(place) for place in range(_MOST_REST))
_REST_OWNER = rest_wallet(bytes(32), 0)[32:64]


def _is_none_on_a_ledger(entry: Entry) -> bool:
    """Whether an account of a dump is of its making: a blank or closed open-orders account, or the wallet for a mint's rest."""
    if entry.kind == "open_orders":
        return is_blank(entry.data) or (is_closed(entry.data) and holds_nothing(entry.data))
    return entry.kind == "wallet" and shown(entry.address) in _REST_NAMES and entry.data[32:64] == _REST_OWNER


def _data_differences(kind: str, first: bytes, second: bytes, exact: bool) -> Iterator[Difference]:
    """What differs between the bytes of two accounts of one kind."""
    if len(first) != len(second):
        yield "length", str(len(first)), str(len(second))
    if kind in ("bids", "asks"):
        yield from side_differences(first, second, exact)
    elif kind == "event_q":
        yield from event_queue_differences(first, second)
    else:
        yield from field_differences(SIZES[kind].layout, first, second)
    if kind == "req_q":
        yield from _ring_differences(first, second)
    ours, theirs = first[-_END_TEXT:], second[-_END_TEXT:]
    if kind in _WITH_END_TEXT and ours != theirs:
        yield "padding", "0x" + ours.hex(), "0x" + theirs.hex()


def _ring_differences(first: bytes, second: bytes) -> Iterator[Difference]:
    """The first byte that differs in the ring of a request queue, which nobody reads."""
    start = 37
    ours, theirs = first[start:-_END_TEXT], second[start:-_END_TEXT]
    if len(first) == len(second) and ours != theirs:
        place = next(place for place, (one, other) in enumerate(zip(ours, theirs)) if one != other)
        yield f"ring_byte {start + place}", str(ours[place]), str(theirs[place])


def _entry_differences(first: Optional[Entry], second: Optional[Entry], exact: bool, passed: bool) -> Iterator[str]:
    """The lines of one account that is in either input; `passed` is whether what a dump alone has, or leaves out,
    is passed over."""
    one = first or second
    assert one is not None
    name = f"{one.kind} {shown(one.address)}"
    if first is None or second is None:
        if not (passed and _is_none_on_a_ledger(one)):
            yield f"{name} account {'there' if first else '-'} {'there' if second else '-'}"
    elif first.kind != second.kind:
        yield f"{name} kind {first.kind} {second.kind}"
    elif first.data != second.data:
        for field_name, ours, theirs in _data_differences(first.kind, first.data, second.data, exact):
            if exact or not (passed and _is_native_word(first, field_name, ours, theirs)):
                yield f"{name} {field_name} {ours} {theirs}"


def _is_native_word(entry: Entry, field_name: str, ours: str, theirs: str) -> bool:
    """Whether a field differs in what a dump leaves out of native accounts: the word that says so, and the supply of their mint."""
    if entry.kind == "mint":
        return field_name == "supply" and entry.address == NATIVE_MINT and "0" in (ours, theirs)
    return field_name == "is_native" and _PLAIN in (ours, theirs) and (ours + theirs).replace(_PLAIN, "").startswith("0x01000000")


def _is_told_by_none(first: Optional[Entry], second: Optional[Entry], lines: list[str]) -> bool:
    """Whether two accounts have other bytes of one meaning, so that no line tells them."""
    return not lines and first is not None and second is not None and first.data != second.data


def _parts(compared: Compared) -> dict[bytes, Key]:
    """The vaults, queues and sides that the markets of an input name, by address."""
    markets = [entry for entry in compared.entries.values() if entry.kind == "market"]
    return {address_at("market", part, market.data): Key(market.address, part) for market in markets for part in PARTS}


def _by_part(compared: Compared, parts: dict[bytes, Key]) -> dict[Key, Entry]:
    """The accounts of an input, where those that a market of either input names are known by it."""
    entries: dict[Key, Entry] = {}
    for key, entry in compared.entries.items():
        may_be_part = not key.part and (entry.kind == "wallet" or entry.kind in PARTS)
        known = parts.get(key.address, key) if may_be_part else key
        entries[known] = entry._replace(kind=known.part) if known.part else entry
    return entries


def compare(first: Compared, second: Compared, exact: bool, notes: list[str]) -> Iterator[str]:
    """Each difference between two inputs, one line each: kind, account, field, and both values. With `exact`, all bytes count.

    Adds to `notes` the accounts whose bytes differ and mean the same."""
    for word, said in first.words.items():
        if second.words.get(word, said) != said:
            yield f"{word} {said} {second.words[word]}"
    parts = _parts(first) | _parts(second)
    ours, theirs = _by_part(first, parts), _by_part(second, parts)
    for key in list(ours) + [key for key in theirs if key not in ours]:
        one, other = ours.get(key), theirs.get(key)
        lacking = second if other is None else first
        is_mixed = not exact and first.is_ledgers != second.is_ledgers
        lines = list(_entry_differences(one, other, exact, is_mixed and (lacking.is_ledgers or None not in (one, other))))
        yield from lines
        if one is not None and _is_told_by_none(one, other, lines):
            notes.append(f"{one.kind} {shown(one.address)}: other bytes that mean the same; --bytes tells them")
