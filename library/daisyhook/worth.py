"""The table that `worth` gives."""

from __future__ import annotations

from dataclasses import dataclass
from functools import cached_property


@dataclass(frozen=True, slots=True)
class Worth:
    """What an account is worth, in native units of base and of quote: what its market holds for it, less what it deposited, plus
    what was settled out to it. Either may be less than nothing."""

    coin: int
    pc: int


class Worths:
    """The worth of each account of each market: `text` as the command wrote it, `markets` parsed.

    >>> daisyhook.worth(script).markets['m']['amy']
    Worth(coin=-300, pc=1500)
    """

    def __init__(self, text: bytes) -> None:
        self.text = text

    @cached_property
    def markets(self) -> dict[str, dict[str, Worth]]:
        """By market and account, both in declared order. A market without accounts is not there."""
        found: dict[str, dict[str, Worth]] = {}
        for line in self.text.decode().splitlines()[1:-1]:
            _, market, account, coin, pc = line.split()
            found.setdefault(market, {})[account] = Worth(int(coin), int(pc))
        return found
