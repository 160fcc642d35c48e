"""Rows that act in place on accounts in memory, and the report of them."""

from __future__ import annotations

import binascii
import re
from base64 import b64decode, b64encode
from collections.abc import Iterator
from dataclasses import dataclass
from functools import cached_property

from . import accounts
from .accounts import WALLET, number_at
from .addresses import address_bytes, address_of
from .data import of_words
from .entries import Entry, Move, WalletEntry, line_of, wallet_line_of
from .held import Held, HeldAccounts
from .market import Market
from .report import Market as ReportedMarket
from .report import Report
from .swaps import Swap

WORD = '(?:[a-z0-9_]{1,24}|0x[0-9a-f]{64})'
NAMED, WALLET_WORDS = f',(-|{WORD}(?: {WORD}){{0,15}})', f',(-|{WORD})' * 4
ROW = re.compile(f'(do|ix),([0-9]|1[0-5]),({WORD}),({WORD}){NAMED}{WALLET_WORDS},(.*)')
CLOCK, LAST_CLOCK = re.compile('clock,(0|[1-9][0-9]{0,18})', re.ASCII), 2**63 - 1
MOST_DATA = 256


@dataclass(frozen=True, slots=True)
class Act:
    """An instruction row: its lane, its market, who signs, the open-orders accounts that it names, its wallets by
    role, and its data."""

    lane: int
    market: str
    signer: str
    named: tuple[str, ...]
    roles: tuple[str | None, ...]
    data: bytes


def data_of(kind: str, said: str) -> bytes:
    """The data of a row. ValueError where it has no plain form."""
    if kind == 'do':
        return of_words(said)
    data = b64decode(said, validate=True)
    if len(data) > MOST_DATA or b64encode(data).decode() != said:
        raise ValueError(f'{said!r} is no data')
    return data


def act_of(line: str) -> Act | int:
    """What a row is: an instruction, or the clock from there on. ValueError where it has no plain form."""
    found = ROW.fullmatch(line)
    if found is None:
        clock = CLOCK.fullmatch(line)
        if clock is None or int(clock[1]) > LAST_CLOCK:
            raise ValueError(f'{line!r} is no plain row')
        return int(clock[1])
    kind, lane, market, signer, named, *roles, said = found.groups()
    names = () if named == '-' else tuple(map(address_of, named.split(' ')))
    wallets = tuple(None if role == '-' else address_of(role) for role in roles)
    return Act(int(lane), address_of(market), address_of(signer), names, wallets, data_of(kind, said))


def acts_of(rows: bytes, held: Held) -> list[Act | int] | None:
    """The rows that may act in place on these accounts; None where one is no plain row: a swap, one with quotes, or
    one that is at fault."""
    try:
        acts = list(map(act_of, rows.decode('ascii').removesuffix('\n').split('\n'))) if rows else []
    except (ValueError, binascii.Error):
        return None
    are_known = all(act.market in held.markets and held.has_wallets(act.roles) for act in acts if isinstance(act, Act))
    return acts if are_known else None


def move_of(wallet: str, before: int, after: int) -> Move:
    """What became of a wallet."""
    kind = 'probe' if before == after else 'debit' if after < before else 'credit'
    return Move(wallet, kind, abs(after - before), before)


class Stage:
    """Accounts on which rows act in place: copies of those that the rows name, for none else sees them before the
    end."""

    def __init__(self, held: Held, acts: list[Act | int], program: str) -> None:
        rows = [act for act in acts if isinstance(act, Act)]
        markets = dict.fromkeys(act.market for act in rows)
        wallets = dict.fromkeys(word for act in rows for word in act.roles if word is not None)
        self.held = held.copy(markets, wallets)
        self.markets = {address: Market.over(self.held, address, program=program) for address in markets}
        self.journals: dict[str, list[Entry]] = {address: [] for address in markets}
        self.moves: dict[str, list[WalletEntry]] = {address: [] for address in wallets}
        self._sorted: dict[tuple[str | None, ...], list[str]] = {}

    def _wallets_of(self, roles: tuple[str | None, ...]) -> list[str]:
        """The wallets that a row names, each once, by rising address."""
        found = self._sorted.get(roles)
        if found is None:
            found = self._sorted[roles] = sorted({word for word in roles if word is not None}, key=address_bytes)
        return found

    def _amount(self, wallet: str) -> int:
        """The native amount in a wallet."""
        return number_at(self.held.wallets[wallet], WALLET['amount'])

    def act(self, act: Act, row: int, clock: int) -> None:
        """Lets a row act."""
        market, wallets = self.markets[act.market], self._wallets_of(act.roles)
        coin, pc, discount, referrer = act.roles
        market.clock = clock
        before = [self._amount(word) for word in wallets]
        reply = market.process(act.signer, act.data, named=act.named, coin=coin, pc=pc, discount=discount,
                               referrer=referrer)
        moves = tuple(move_of(word, amount, self._amount(word)) for word, amount in zip(wallets, before))
        self.journals[act.market].append(Entry(act.lane, row, reply, moves))
        for move in moves:
            self.moves[move.wallet].append(WalletEntry(act.market, act.lane, row, move.kind, move.amount, move.before))


class StepMarket(ReportedMarket):
    """A market of a step's report, whose entries are there already."""

    journal: tuple[Entry, ...] = ()


class StepReport(Report):
    """The report of rows that acted in place. Its text, which is that of a replay, is written when it is asked for."""

    def __init__(self, stage: Stage, rows: int) -> None:
        self.rows, self._held, self._entries, self._moves = rows, stage.held, stage.journals, stage.moves

    @cached_property
    def text(self) -> bytes:
        """The report as the program prints it."""
        return '\n'.join(self._lines()).encode() + b'\n' + self.dump + b'end\n'

    def _lines(self) -> Iterator[str]:
        """The lines before the dump."""
        yield f'report {self.rows}'
        for address in self._held.markets:
            entries = self._entries.get(address, ())
            yield f'market {address} {len(entries)}'
            yield from map(line_of, entries)
        for address in self._held.wallets:
            moves = self._moves.get(address, ())
            yield f'wallet {address} {len(moves)}'
            yield from map(wallet_line_of, moves)

    @cached_property
    def dump(self) -> bytes:
        """The accounts at the end, as a dump; a script may begin with it."""
        return self._held.dump()

    @cached_property
    def accounts(self) -> accounts.Accounts:
        """The accounts at the end."""
        return HeldAccounts(self._held)

    def _market_of(self, plain: accounts.Market) -> StepMarket:
        """A market with its journal."""
        market = StepMarket(plain.address, plain.authority, plain._fields)
        market._orders = plain._orders
        market.journal = tuple(self._entries.get(plain.address, ()))
        return market

    def _moves_of(self, wallet: str) -> tuple[WalletEntry, ...]:
        """A wallet's journal."""
        return tuple(self._moves.get(wallet, ()))

    @cached_property
    def swaps(self) -> dict[int, Swap]:
        """None: rows that act in place are no swaps."""
        return {}


def step_of(held: Held, acts: list[Act | int], program: str, clock: int | None,
            first_row: int) -> tuple[Held, StepReport, int | None]:
    """What rows leave of these accounts, which stay as they are, the report of it, and the clock behind them, if one
    was set; the first row has this number."""
    stage, count = Stage(held, acts, program), 0
    for row, act in enumerate(acts, first_row):
        if isinstance(act, int):
            clock = act
        else:
            stage.act(act, row, clock or 0)
            count += 1
    return stage.held, StepReport(stage, count), clock
