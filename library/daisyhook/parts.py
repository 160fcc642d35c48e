"""Where a script may be cut."""

from __future__ import annotations

from functools import cached_property


def numbers_of(word: str, text: bytes) -> list[int]:
    """The numbers of the lines that begin with a word."""
    front = f'{word} '.encode()
    return [int(line[len(front):]) for line in text.splitlines() if line.startswith(front)]


class Shards:
    """The shards into which a script falls: rows of two shards share no market and no wallet. `text` is as the library told it.

    A shard has a number. A replay of the markets, wallets and rows of one number leaves of them what the whole script leaves.

    >>> daisyhook.shards(script).rows
    [0, 0, 2, 0, 2]
    """

    def __init__(self, text: bytes) -> None:
        self.text = text

    @cached_property
    def markets(self) -> list[int]:
        """The shard of each market, in declared order."""
        return numbers_of('market', self.text)

    @cached_property
    def wallets(self) -> list[int]:
        """The shard of each wallet, in declared order. A wallet that no row names is of shard 0."""
        return numbers_of('wallet', self.text)

    @cached_property
    def rows(self) -> list[int]:
        """The shard of each instruction row, in order. A swap is two rows, of one shard."""
        return numbers_of('row', self.text)
