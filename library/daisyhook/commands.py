"""The commands as functions."""

from __future__ import annotations

from operator import index

from .accounts import Accounts
from .errors import Finding, InputTooLong, OutOfLimits, findings_of, refusal_of
from .limits import STANDARD, Limits
from .native import call
from .parts import Shards, numbers_of
from .report import Report
from .summary import Summary, summary_of
from .worth import Worths

Text = bytes | bytearray | memoryview | str


def bytes_of(text: Text, limits: Limits = STANDARD) -> bytes:
    """The bytes of a text. TypeError where it is none; InputTooLong where it is longer than the limits allow."""
    told = text.encode() if isinstance(text, str) else text
    if memoryview(told).nbytes > limits.input_bytes:
        raise InputTooLong()
    return bytes(told)


def within(number: int, least: int, most: int, what: str) -> int:
    """The number, where it is within its limits, as the library takes no other. TypeError where it is no whole number."""
    if not least <= index(number) <= most:
        raise OutOfLimits(1, f'{what} is {number}, and {least} to {most} is wanted')
    return index(number)


def told_of(name: str, *numbers: int, text: Text, limits: Limits) -> tuple[int, bytes]:
    """What a command answers to a text within these limits."""
    return call(f'dex_{name}{limits.suffix}', *numbers, bytes_of(text, limits))


def done(status: int, text: bytes) -> bytes:
    """The text of a command that was done; else the refusal is raised."""
    if status != 0:
        raise refusal_of(status, text)
    return text


def replay(script: Text, limits: Limits = STANDARD) -> Report:
    """Lets all rows of a script act, one after the other.

    Raises ScriptRefused, or DumpRefused or AuditFailed where the script begins with a dump that is at fault.
    """
    return Report(done(*told_of('replay', text=script, limits=limits)))


def dump(script: Text, limits: Limits = STANDARD) -> bytes:
    """The dump of the accounts that a script leaves. Raises what `replay` raises."""
    return done(*told_of('dump', text=script, limits=limits))


def worth(script: Text, limits: Limits = STANDARD) -> Worths:
    """What each account of each market is worth when all rows of a script have acted. Raises what `replay` raises."""
    return Worths(done(*told_of('worth', text=script, limits=limits)))


def audit(dump: Text, limits: Limits = STANDARD) -> list[Finding]:
    """What an audit of a dump finds, in the order of docs/FORMATS.md; an empty list where the accounts agree.

    Raises DumpRefused where the text is no dump.
    """
    status, text = told_of('audit', text=dump, limits=limits)
    if status == 3 and text.startswith(b'finding '):
        return findings_of(text.decode())
    done(status, text)
    return []


def migrate(dump: Text, nodes: int, events: int, limits: Limits = STANDARD) -> bytes:
    """The dump of the same accounts with sides of so many nodes (1 to 65,536) and event queues for so many events (1 to 65,535).

    Raises MigrateRefused where orders or events do not fit, AuditFailed where the accounts have findings, and DumpRefused.
    """
    sizes = within(nodes, 1, 65_536, 'nodes'), within(events, 1, 65_535, 'events')
    return done(*told_of('migrate', *sizes, text=dump, limits=limits))


def make(number: int, rows: int) -> bytes:
    """The made script of a number (below 2^64) with so many drawn rows (1 to 20,000)."""
    numbers = within(number, 0, 2**64 - 1, 'number'), within(rows, 1, 20_000, 'rows')
    return done(*call('dex_make', *numbers, room=4096 + 128 * rows))


def bulk(number: int, rows: int) -> Summary:
    """The summary of what the made script of this number and so many rows leaves."""
    numbers = within(number, 0, 2**64 - 1, 'number'), within(rows, 1, 20_000, 'rows')
    return summary_of(done(*call('dex_bulk', *numbers, room=4096)))


def shards(script: Text, limits: Limits = STANDARD) -> Shards:
    """Where a script may be cut into shards, which share no market and no wallet. Raises what `replay` raises."""
    return Shards(done(*told_of('shards', text=script, limits=limits)))


def chained(script: Text, rows: int, limits: Limits = STANDARD) -> list[int]:
    """How many instruction rows each part of a chain has, for parts of at most `rows` rows (1 to 2^32 - 1).

    A swap is two rows, and never parted: where `rows` is 1, a part that is a swap has two. Raises what `replay` raises.
    """
    most = within(rows, 1, 2**32 - 1, 'rows')
    return numbers_of('part', done(*told_of('chained', most, text=script, limits=limits)))


def accounts(dump: Text, limits: Limits = STANDARD) -> Accounts:
    """The accounts of a dump, parsed. The dump is audited first: raises DumpRefused, or AuditFailed where there are findings."""
    told = bytes_of(dump, limits)
    done(*told_of('audit', text=told, limits=limits))
    return Accounts(told)
