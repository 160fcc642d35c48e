"""Cutting a script into parts, one for each day or so many rows. Each further part goes on from the dump that the part before it leaves."""

from __future__ import annotations

import os
import tempfile
from dataclasses import dataclass, field
from datetime import datetime, timezone
from typing import IO, Iterable, Iterator, Optional

from bridge.dump_text import dump_rows
from bridge.refusals import Refusal
from bridge.rows import Line, Maker, Wish, acting, follow, head_of_table, numbered, program_rows, start
from bridge.snapshot import Snapshot
from bridge.transactions import Transaction

# The first second of the year 10000, which no day is told of.
_PAST_DAYS = 253402300800


@dataclass
class _Part:
    """A part in the making: its day, the time of the clock before it, its lines, and how many of them are rows that act."""

    day: str
    clock: Optional[int]
    lines: list[Line] = field(default_factory=list)
    rows: int = 0

    def front(self, maker: Maker) -> list[str]:
        """What a dump does not keep: the program, and the clock, where the first row of the part does not set it."""
        first = next(line.row for line in self.lines if line.row is not None)
        is_set = self.clock is None or first.startswith("clock,")
        return program_rows(maker) + ([] if is_set else [f"clock,{self.clock}"])


def _day_of(transaction: Transaction, before: str) -> str:
    """The day of a transaction by universal time; that of the one before it where none is told."""
    time = transaction.time
    if time is None:
        return before
    if not 0 <= time < _PAST_DAYS:
        raise transaction.fault(f"its blockTime is {time}", "save the answer of getTransaction as it is")
    return datetime.fromtimestamp(time, timezone.utc).date().isoformat()


def _parts(maker: Maker, transactions: Iterable[Transaction], most: int) -> Iterator[_Part]:
    """The parts. One ends with its day, and before it would have more rows than `most`; rows of one transaction stay together."""
    part = _Part("", None)
    for transaction in transactions:
        day, clock = _day_of(transaction, part.day), maker.clock
        follow(maker, transaction)
        lines, maker.lines = maker.lines, []
        rows = acting(lines)
        if part.rows and (day != part.day or part.rows + rows > most):
            yield part
            part = _Part(day, clock)
        part.day = day
        part.lines += lines
        part.rows += rows
    yield part


class Folder:
    """A folder of files that is there with all of them, or not at all."""

    def __init__(self, path: str) -> None:
        self.path = path.rstrip("/") or path
        self.made = ""

    def __enter__(self) -> Folder:
        """Makes a folder beside the place of this one."""
        if os.path.exists(self.path) and (not os.path.isdir(self.path) or os.listdir(self.path)):
            raise Refusal(self.path, "it is there, and no empty folder", "name a folder that is new or empty for --parts")
        try:
            above = os.path.dirname(os.path.abspath(self.path))
            os.makedirs(above, exist_ok=True)
            self.made = tempfile.mkdtemp(prefix=f".{os.path.basename(self.path)}.", dir=above)
        except OSError as fault:
            raise self.fault(fault) from None
        return self

    def fault(self, fault: OSError) -> Refusal:
        """Why nothing can be written."""
        return Refusal(self.path, f"it cannot be written ({fault.strerror})", "name a folder that you may write for --parts")

    def write(self, name: str, rows: Iterable[str]) -> None:
        """Writes a file."""
        try:
            with open(os.path.join(self.made, name), "w", encoding="ascii") as file:
                file.writelines(row + "\n" for row in rows)
        except OSError as fault:
            raise self.fault(fault) from None

    def __exit__(self, kind: object, *_: object) -> None:
        """Puts the folder at its place, or removes it where something went wrong."""
        if kind is None:
            try:
                os.chmod(self.made, 0o777 & ~_mask())
                os.rename(self.made, self.path)
                return
            except OSError as fault:
                self.remove()
                raise self.fault(fault) from None
        self.remove()

    def remove(self) -> None:
        """Removes what was made."""
        for name in os.listdir(self.made):
            os.remove(os.path.join(self.made, name))
        os.rmdir(self.made)


def _mask() -> int:
    """Which permissions this process takes from what it makes."""
    mask = os.umask(0)
    os.umask(mask)
    return mask


def write_parts(snapshot: Snapshot, transactions: Iterable[Transaction], wish: Wish, most: int, path: str, table: IO[str]) -> str:
    """Writes the parts into a folder, and the lines of the table as they come, each part's behind its name. Answers the table's first line.
    A row's number counts from the first row behind the dump. The first part, which has the dump, is written last: each transaction may open
    an account that the dump has to have."""
    maker, counted, rows = start(snapshot, wish), 0, 0
    first: list[str] = []

    def count() -> Iterator[Transaction]:
        nonlocal counted
        for counted, transaction in enumerate(transactions, 1):
            yield transaction

    with Folder(path) as folder:
        for number, part in enumerate(_parts(maker, count(), most), 1):
            name = f"{number:05}_{part.day}.csv" if part.day else f"{number:05}.csv"
            front = part.front(maker) if part.rows else []
            texts = front + [line.row for line in part.lines if line.row is not None]
            table.writelines(line + "\n" for line in [f"part {name}", *numbered(part.lines, len(front) + 1)])
            rows += part.rows
            if number == 1:
                name_of_first, first = name, texts
            else:
                folder.write(name, texts)
        folder.write(name_of_first, [*dump_rows(snapshot), *first])
    return head_of_table(rows, counted, maker.without)
