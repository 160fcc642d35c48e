"""Swaps: two takes of one row on two markets, which act both or not at all."""

from __future__ import annotations

from collections.abc import Mapping, Sequence
from dataclasses import dataclass

from .entries import Done, Entry, Refused, entry_of


@dataclass(frozen=True, slots=True)
class Leg:
    """A leg of a swap: the address of its market, and its entry in that market's journal."""

    market: str
    entry: Entry

    @property
    def is_refused(self) -> bool:
        """Whether this take was refused; its reply says why."""
        return isinstance(self.entry.reply, Refused)

    @property
    def is_held_back(self) -> bool:
        """Whether this take did nothing because the other one was refused; its reply is `Done`."""
        return isinstance(self.entry.reply, Done)


@dataclass(frozen=True, slots=True)
class Swap:
    """A swap: the number of its row and its lane, and its two legs, in the order of the report's markets. Which of them the row names
    first is in the script alone."""

    row: int
    lane: int
    legs: tuple[Leg, Leg]

    @property
    def acted(self) -> bool:
        """Whether both legs acted. Else neither did: each was refused or held back."""
        return not any(leg.is_refused or leg.is_held_back for leg in self.legs)


def swaps_of(journals: Mapping[str, Sequence[str]]) -> dict[int, Swap]:
    """The swaps by their rows, of the lines of each market's journal: a swap's row has an entry in each of two."""
    met: dict[str, tuple[str, str]] = {}
    found: dict[int, Swap] = {}
    for address, lines in journals.items():
        for line in lines:
            row = line.split(' ', 3)[2]
            if row in met:
                legs = Leg(met[row][0], entry_of(met[row][1])), Leg(address, entry_of(line))
                found[int(row)] = Swap(int(row), legs[0].entry.lane, legs)
            met[row] = address, line
    return dict(sorted(found.items()))
