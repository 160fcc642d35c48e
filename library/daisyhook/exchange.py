"""All accounts of an exchange at some moment, and what further rows make of them."""

from __future__ import annotations

import re
from functools import cached_property

from .accounts import Accounts
from .commands import Text, bytes_of, replay
from .held import Held
from .limits import STANDARD, Limits
from .native import library
from .steps import acts_of, step_of

# The rows that a dump does not keep. In a script that was taken no field has a line end, so a line is a row.
PROGRAM = re.compile(rb'(?:\xef\xbb\xbf)?"?program"?,"?(serum|openbook)"?(?:\r\n?|\n|\Z)')
CLOCK = re.compile(rb'^(?:\xef\xbb\xbf)?"?clock"?,"?([0-9]+)"?\r?$', re.MULTILINE)
END_OF_DUMP = re.compile(rb'^"?enddump"?(?:\r\n?|\n|\Z)', re.MULTILINE)
# So many bytes of a dump are read, audited and written in the time of a row in place.
DUMP_OF_A_ROW, FEW_ROWS = 4000, 4


class Exchange:
    """All accounts of an exchange at some moment, from which further rows may act: a simulation step by step.

    An exchange never changes: `step` gives the next one, so one may be kept and gone on from twice. `report` is that
    of the rows that led here. A step of few plain rows copies the bytes of the accounts that it names, and the rows
    act there (`Market`); another reads all accounts anew from their dump, audits them and replays the rows.
    docs/LIBRARY.md has figures.

    >>> start = Exchange(script)
    >>> next = start.step('do,0,m,ann,amy,ann_coin,-,-,-,new ask 50 4 1 decrement limit 7 10')
    >>> next.report.markets['m'].journal[0].reply.lots_resting
    4
    """

    def __init__(self, script: Text, limits: Limits = STANDARD) -> None:
        self.limits = limits
        self._script = bytes_of(script, limits)
        self.report = replay(self._script, limits)

    @property
    def dump(self) -> bytes:
        """The accounts, as a dump."""
        return self.report.dump

    @cached_property
    def _front(self) -> bytes:
        """The `program` and `clock` rows that the rows so far end with. A dump has neither."""
        end = END_OF_DUMP.search(self._script) if self._script.lstrip(b'\xef\xbb\xbf"').startswith(b'dump') else None
        rows = self._script[end.end():] if end else self._script
        program, clocks = PROGRAM.match(rows), CLOCK.findall(rows.replace(b'\r\n', b'\n').replace(b'\r', b'\n'))
        return (b'program,%s\n' % program[1] if program else b'') + (b'clock,%s\n' % clocks[-1] if clocks else b'')

    def step(self, rows: Text) -> Exchange:
        """The exchange when further instruction rows have acted.

        The rows are those of a script behind a dump: `do`, `ix`, `swap` and `clock`. The program and the clock go on
        as they are; a `program` row at the front of the rows changes the program. Rows count from the dump's first
        row on, so the first row here has the number `first_row`. Raises ScriptRefused; then this exchange is as it
        was.
        """
        given, front = bytes_of(rows, self.limits), self._front
        changed = PROGRAM.match(given)
        if changed:
            kept = PROGRAM.match(front)
            front = changed[0].rstrip(b'\r\n') + b'\n' + front[kept.end() if kept else 0:]
            given = given[changed.end():]
        acted = None if changed else self._step_in_place(given)
        return Exchange(self.dump + front + given, self.limits) if acted is None else acted

    @cached_property
    def _held(self) -> Held:
        """The accounts as bytes, which nobody changes any more."""
        return Held(Accounts(self.dump))

    @cached_property
    def _dump_shape(self) -> tuple[int, int]:
        """How many bytes and rows the dump has. No step changes that."""
        return len(self.dump), self.dump.count(b'\n')

    def _step_in_place(self, rows: bytes) -> Exchange | None:
        """The exchange when these rows have acted in place; None where they cannot, or are so many that a replay is
        quicker."""
        count, size = rows.count(b'\n') + 1, self._dump_shape[0]
        is_quick = count <= max(FEW_ROWS, size // DUMP_OF_A_ROW) and hasattr(library(), 'dex_process')
        if not is_quick or count > self.limits.rows or size + len(self._front) + len(rows) > self.limits.input_bytes:
            return None
        acts = acts_of(rows, self._held)
        if acts is None:
            return None
        program, clock = PROGRAM.match(self._front), CLOCK.search(self._front)
        name = program[1].decode() if program else 'serum'
        held, report, now = step_of(self._held, acts, name, int(clock[1]) if clock else None, self.first_row)
        made = Exchange.__new__(Exchange)
        made.limits, made.report, made._held, made._dump_shape = self.limits, report, held, self._dump_shape
        made._front = (program[0] if program else b'') + (b'' if now is None else b'clock,%d\n' % now)
        return made

    @property
    def first_row(self) -> int:
        """The number that reports give the first row of the next step: behind the dump, the `program` row and the
        `clock` row."""
        return self._dump_shape[1] + self._front.count(b'\n') + 1
