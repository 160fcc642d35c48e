"""What a call may refuse, each as an exception with its values."""

from __future__ import annotations

from collections.abc import Callable
from dataclasses import dataclass


class DexError(Exception):
    """A command that was not done. `status` is the program's exit status, `text` the lines that it prints."""

    status: int | None
    text: str

    def __init__(self, status: int | None, text: str) -> None:
        super().__init__(text.rstrip('\n'))
        self.status = status
        self.text = text

    def __reduce__(self) -> tuple[Callable[[int, bytes], DexError], tuple[int, bytes]]:
        return refusal_of, (self.status, self.text.encode())


class OutOfLimits(DexError, ValueError):
    """A number is not within its limits: rows 1 to 20,000, nodes 1 to 65,536, events 1 to 65,535."""


class InputTooLong(DexError, ValueError):
    """The input has more bytes than the limits allow: 67,108,864, or 2^40 with `WIDE`."""

    def __init__(self) -> None:
        super().__init__(6, 'input too long\n')


class OutOfMemory(DexError, MemoryError):
    """Memory was wanting."""


class ScriptRefused(DexError, ValueError):
    """A row of the script is at fault: the first such row, counted from 1, and the lowest of its faults.

    `kind` is the fault's number, from 1 to 10, and `name` its name, such as `UnknownLabel` or `BadSwap`; `code` is
    the setup code where `kind` is 9, and else None. Kind 11, `NoBatch`, is of the program's command `batch`, which
    refuses swaps.
    """

    def __init__(self, text: str) -> None:
        super().__init__(2, text)
        words = text.split()
        self.row = int(words[3].rstrip(':'))
        self.kind = int(words[4])
        self.name = words[5]
        self.code = int(words[6]) if len(words) > 6 else None

    def __repr__(self) -> str:
        code = '' if self.code is None else f', code={self.code}'
        return f'ScriptRefused(row={self.row}, kind={self.kind}, name={self.name!r}{code})'


class DumpRefused(DexError, ValueError):
    """A row of a dump is at fault, also of one at a script's start: the first such row, counted from 1, and the fault.

    `account` is the account at fault, `place` a place in it, `found` what stands there and `wanted` what should.
    """

    def __init__(self, text: str) -> None:
        super().__init__(3, text)
        words = text.split()
        self.row = int(words[3].rstrip(':'))
        self.kind = int(words[4])
        self.name = words[5]
        self.account = words[6]
        self.place, self.found, self.wanted = (int(word) for word in words[7:10])

    def __repr__(self) -> str:
        where = f'account={self.account!r}, place={self.place}, found={self.found}, wanted={self.wanted}'
        return f'DumpRefused(row={self.row}, kind={self.kind}, name={self.name!r}, {where})'


@dataclass(frozen=True, slots=True)
class Finding:
    """A place where accounts of a dump disagree: the kind's number, the account, a place in it, what was found, what
    is wanted."""

    kind: int
    account: str
    place: int
    found: int
    wanted: int


def findings_of(text: str) -> list[Finding]:
    """The findings that lines tell."""
    found = []
    for line in text.splitlines():
        words = line.split()
        if words[0] == 'finding':
            found.append(Finding(int(words[1]), words[2], int(words[3]), int(words[4]), int(words[5])))
    return found


class AuditFailed(DexError, ValueError):
    """The accounts of a dump have findings, where a command needs a dump that has none."""

    def __init__(self, text: str) -> None:
        super().__init__(3, text)
        self.findings = findings_of(text)

    def __repr__(self) -> str:
        return f'AuditFailed({len(self.findings)} findings)'


class MigrateRefused(DexError, ValueError):
    """Accounts do not fit the sizes to migrate to: the first market, `what` of it (`bids`, `asks` or `events`), how
    many nodes or events are needed, and how many were given."""

    def __init__(self, text: str) -> None:
        super().__init__(8, text)
        words = text.split()
        self.market, self.what = words[2], words[3]
        self.needed, self.given = int(words[4]), int(words[5])

    def __repr__(self) -> str:
        return f'MigrateRefused(market={self.market!r}, what={self.what!r}, needed={self.needed}, given={self.given})'


class AccountsRefused(DexError, ValueError):
    """Account JSON that is not taken: `text` says where, what is wrong with it, and what to do."""

    def __init__(self, text: str) -> None:
        super().__init__(2, text)

    def __reduce__(self) -> tuple[type[AccountsRefused], tuple[str]]:
        return AccountsRefused, (self.text,)


@dataclass(frozen=True, slots=True)
class Flaw:
    """What is wrong with the accounts of a market. `what` is `fault`, where an account is not one of its kind
    (`kind` as of a dump's faults), `finding`, where accounts disagree (`kind` as of an audit), or `twice`, where two
    have the address `account`."""

    what: str
    kind: int
    account: str
    place: int
    found: int
    wanted: int


class NotSound(DexError, ValueError):
    """Accounts that are not those of a sound market, so that nothing was done: `flaw` is the first that is wrong."""

    def __init__(self, flaw: Flaw) -> None:
        super().__init__(3, f'{flaw.what} {flaw.kind} {flaw.account} {flaw.place} {flaw.found} {flaw.wanted}')
        self.flaw = flaw

    def __reduce__(self) -> tuple[type[NotSound], tuple[Flaw]]:
        return NotSound, (self.flaw,)


class DeskGone(DexError):
    """There is no session any more: the program was not found or could not be started, it ended or was killed, or it
    did not answer in time.

    `status` is its exit status, below 0 the signal that ended it, and None where it was never started.
    """

    def __init__(self, text: str, status: int | None = None) -> None:
        super().__init__(status, text)

    def __reduce__(self) -> tuple[type[DeskGone], tuple[str, int | None]]:
        return DeskGone, (self.text, self.status)


def refusal_of(status: int, text: bytes) -> DexError:
    """The exception for a status that is not 0."""
    told = text.decode()
    if status == 1:
        return OutOfLimits(status, told or 'a number is not within its limits')
    if status == 2:
        return ScriptRefused(told)
    if status == 3:
        return AuditFailed(told) if told.startswith('finding ') else DumpRefused(told)
    if status == 6:
        return InputTooLong()
    if status == 7:
        return OutOfMemory(status, 'no memory')
    if status == 8:
        return MigrateRefused(told)
    return DexError(status, told)
