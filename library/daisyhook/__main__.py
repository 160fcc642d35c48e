"""The commands as a command: python3 -m daisyhook WORDS < SCRIPT. Words, streams and exit status are those of the
program `dex`, which docs/FORMATS.md tells. With `--wide` in front of the words a dump and a script are read within the
widest limits. `run` and `batch` need threads that the library has not: status 70, and nothing is run."""

from __future__ import annotations

import os
import re
import sys
from dataclasses import dataclass

from .limits import STANDARD, WIDE, Limits
from .native import call

USAGE = b'usage: dex replay, run, audit, dump, worth, make NUMBER ROWS, bulk NUMBER ROWS, migrate NODES EVENTS or batch WORKERS\n'
READ_FAILED, WRITE_FAILED, TOO_LONG, NO_MEMORY = 4, 5, 6, 7


@dataclass(frozen=True)
class Command:
    """A command: the library's function (none: it needs threads), the least and the most of each number, and whether it reads input."""

    function: str | None
    numbers: tuple[tuple[int, int], ...] = ()
    reads: bool = True


MADE = ((0, 2**64 - 1), (1, 20_000))
COMMANDS = {
    'replay': Command('dex_replay'), 'dump': Command('dex_dump'), 'audit': Command('dex_audit'), 'worth': Command('dex_worth'),
    'migrate': Command('dex_migrate', ((1, 65_536), (1, 65_535))),
    'make': Command('dex_make', MADE, reads=False), 'bulk': Command('dex_bulk', MADE, reads=False),
    'run': Command(None), 'batch': Command(None, ((1, 16),)),
}


def number_of(word: str, least: int, most: int) -> int | None:
    """The number that a word is: decimal, without zeros in front, within its limits."""
    number = int(word) if re.fullmatch('0|[1-9][0-9]{0,19}', word) else -1
    return number if least <= number <= most else None


def read_words(words: list[str]) -> tuple[Command, list[int]] | None:
    """The command that the words are, with its numbers."""
    command = COMMANDS.get(words[0]) if words else None
    if command is None or len(words) != 1 + len(command.numbers):
        return None
    numbers = [number_of(word, *limits) for word, limits in zip(words[1:], command.numbers)]
    kept = [number for number in numbers if number is not None]
    return (command, kept) if len(kept) == len(numbers) else None


def read_input(most: int) -> bytes:
    """Standard input to its end, or to the first byte that is too many."""
    pieces, length = [], 0
    while length <= most and (piece := os.read(0, 1_048_576)):
        pieces.append(piece)
        length += len(piece)
    return b''.join(pieces)


def answer_of(command: Command, numbers: list[int], limits: Limits) -> tuple[int, bytes]:
    """What a command answers to standard input within these limits: a status and a text."""
    front: list[int | bytes] = list(numbers)
    if command.reads:
        try:
            front.append(read_input(limits.input_bytes))
        except OSError:
            return READ_FAILED, b'read failed\n'
        if len(front[-1]) > limits.input_bytes:
            return TOO_LONG, b'input too long\n'
    status, text = call(command.function + (limits.suffix if command.reads else ''), *front)
    return status, b'no memory\n' if status == NO_MEMORY else text


def write_all(text: bytes) -> None:
    """Writes a text to standard output."""
    rest = memoryview(text)
    while rest:
        rest = rest[os.write(1, rest):]


def main() -> int:
    """Does what the words say; gives the exit status."""
    limits, words = STANDARD, sys.argv[1:]
    if words[:1] == ['--wide']:
        limits, words = WIDE, words[1:]
    asked = read_words(words)
    if asked is not None and asked[0].function is None:
        os.write(2, f'daisyhook: {words[0]} needs threads, which the library has not: ./dex and ./now have it; nothing was run\n'.encode())
        return 70
    try:
        status, text = (1, USAGE) if asked is None else answer_of(*asked, limits)
    except MemoryError:
        status, text = NO_MEMORY, b'no memory\n'
    try:
        write_all(text)
    except OSError:
        return WRITE_FAILED
    return status


if __name__ == '__main__':
    sys.exit(main())
