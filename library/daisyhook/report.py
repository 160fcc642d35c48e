"""A report: the journals of markets and wallets, and the accounts at the end."""

from __future__ import annotations

from dataclasses import dataclass
from functools import cached_property

from . import accounts
from .entries import Entry, WalletEntry, entry_of, wallet_entry_of
from .swaps import Swap, swaps_of


class Market(accounts.Market):
    """A market of a report, with its journal."""

    @cached_property
    def journal(self) -> tuple[Entry, ...]:
        """The entries of all rows on it, in the order in which they acted."""
        return tuple(map(entry_of, self._lines))


@dataclass(frozen=True, slots=True)
class Wallet(accounts.Wallet):
    """A wallet of a report, with its journal."""

    journal: tuple[WalletEntry, ...]


class Report:
    """What a script's rows leave. `text` is the report as the program prints it; all else is read from it when it is asked for.

    A row has one entry, in its market's journal. A swap has one in each of two, and `swaps` has both beside one another.
    """

    def __init__(self, text: bytes) -> None:
        self.text = text
        # A line `dump` stands once: no line of a journal is that word.
        self._end = text.index(b'\ndump\n') + 1

    def __repr__(self) -> str:
        return f'Report({self.rows} rows, markets {list(self.markets)})'

    @cached_property
    def rows(self) -> int:
        """How many instruction rows the script has; a swap is one."""
        return int(self.text[7:self.text.index(b'\n')])

    @cached_property
    def dump(self) -> bytes:
        """The accounts at the end, as a dump; a script may begin with it."""
        return self.text[self._end:-len(b'end\n')]

    @cached_property
    def accounts(self) -> accounts.Accounts:
        """The accounts at the end."""
        return accounts.Accounts(self.dump)

    @cached_property
    def _journals(self) -> dict[tuple[str, str], list[str]]:
        lines = self.text[:self._end].decode().splitlines()
        found, at = {}, 1
        while at < len(lines):
            kind, address, count = lines[at].split(' ')
            found[kind, address] = lines[at + 1:at + 1 + int(count)]
            at += 1 + int(count)
        return found

    @cached_property
    def markets(self) -> dict[str, Market]:
        """The markets by their addresses, in the script's order."""
        return {address: self._market_of(plain) for address, plain in self.accounts.markets.items()}

    def _market_of(self, plain: accounts.Market) -> Market:
        """A market with its journal."""
        market = Market(plain.address, plain.authority, plain._fields)
        market._orders = plain._orders
        market._lines = self._journals['market', plain.address]
        return market

    @cached_property
    def swaps(self) -> dict[int, Swap]:
        """The swaps by the numbers of their rows, from the lowest on."""
        journals = {address: lines for (kind, address), lines in self._journals.items() if kind == 'market'}
        has_swaps = sum(map(len, journals.values())) > self.rows
        return swaps_of(journals) if has_swaps else {}

    @cached_property
    def wallets(self) -> dict[str, Wallet]:
        """The wallets by their addresses, in the script's order."""
        return {address: Wallet(address, plain.mint, plain.owner, plain.amount, self._moves_of(address))
                for address, plain in self.accounts.wallets.items()}

    def _moves_of(self, wallet: str) -> tuple[WalletEntry, ...]:
        """A wallet's journal."""
        return tuple(map(wallet_entry_of, self._journals['wallet', wallet]))
