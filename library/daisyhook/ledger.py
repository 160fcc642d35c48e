"""Accounts of a ledger in the JSON of its tools, read by this repository's bridge (docs/LEDGER.md), which is no part
of what is proved."""

from __future__ import annotations

import importlib
import os
import sys
from collections.abc import Iterable
from pathlib import Path
from types import ModuleType
from typing import NamedTuple

from .errors import AccountsRefused

HERE = Path(__file__).resolve().parent
# Where the bridge may stand: inside this module, where pip put it; in a clone at its top.
PLACES = HERE / 'from_ledger', HERE.parent.parent
Paths = Iterable[str | os.PathLike[str]]


class LedgerMarket(NamedTuple):
    """A market of a ledger as a dump, its address, the program whose rules it follows (`serum` or `openbook`), and
    lines that tell what was left out."""

    dump: bytes
    address: str
    program: str
    notes: tuple[str, ...]


def bridge(name: str) -> ModuleType:
    """A module of the bridge. ModuleNotFoundError where the bridge is not there."""
    place = next((place for place in PLACES if (place / 'bridge').is_dir()), None)
    if place is None:
        places = ', '.join(map(str, PLACES))
        raise ModuleNotFoundError(f'account JSON is read by the folder `bridge`, which is in none of {places}')
    sys.path.insert(0, str(place))
    try:
        return importlib.import_module(f'bridge.{name}')
    finally:
        sys.path.remove(str(place))


def market_among(accounts: dict, market: str | None) -> bytes:
    """The address of the market: the one that is named, or the only one that there is. AccountsRefused where there is
    no such account."""
    if market is not None:
        named = bridge('accounts').read_address(market, 'market')
        if named not in accounts:
            raise AccountsRefused(f'market {market}: none of the accounts has this address')
        return named
    snapshot = bridge('snapshot')
    found = [address for address, one in accounts.items()
             if snapshot.kind_by_flags(one.data) == 'market' and not snapshot.length_fault('market', one.data)]
    if len(found) != 1:
        raise AccountsRefused(f'{len(found)} of the accounts are markets; name the one that is wanted')
    return found[0]


def read_market(files: Paths, market: str | None, authority: str, srm: str | None, msrm: str | None,
                program: str | None, leave_out_wallets: bool) -> LedgerMarket:
    """The market of files and folders of account JSON, as `ledger dump` takes them. AccountsRefused where they are
    not taken."""
    reader, making, tables = bridge('accounts'), bridge('making'), bridge('tables')
    address_in = reader.read_address
    try:
        accounts = reader.read_accounts([os.fspath(file) for file in files])
        address = market_among(accounts, market)
        owners = list(tables.PROGRAMS.values())
        if program is not None:
            owners = [tables.PROGRAMS.get(program) or address_in(program, 'program')]
        discounts = [word and address_in(word, name) for name, word in (('srm', srm), ('msrm', msrm))]
        signer = address_in(authority, 'authority')
        wanted = making.Wanted([address], [signer], *discounts, frozenset(owners), leave_out_wallets)
        snapshot, notes = making.make_snapshot(accounts, wanted)
    except bridge('refusals').Refusal as refusal:
        raise AccountsRefused(str(refusal)) from None
    rules = next((name for name, owner in tables.PROGRAMS.items() if owner == accounts[address].owner), 'serum')
    dump = '\n'.join([*bridge('dump_text').dump_rows(snapshot), '']).encode()
    return LedgerMarket(dump, bridge('encoding').dump_word(address), rules, tuple(notes))
