"""A live session: the program `desk` on the other end of two pipes, which answers rows one at a time.

>>> with Desk(script) as desk:
...     desk.do('do,0,m,ann,amy,ann_coin,-,-,-,new ask 50 4 1 decrement limit 7 10').reply.lots_resting
4

`Exchange.step` does the same without that program, in more time.
"""

from __future__ import annotations

import os
import select
import subprocess
import time
from codecs import BOM_UTF8
from collections import deque
from collections.abc import Iterable
from pathlib import Path

from .accounts import Depth, Level
from .commands import Text, bytes_of
from .entries import Entry, entry_of
from .errors import DeskGone, ScriptRefused, refusal_of
from .swaps import Leg, Swap

Answer = Entry | Swap
INSTRUCTIONS = (b'do', b'ix', b'swap')
# The first words of lines that end what a set-up is answered, and the status that a refusal has.
SETTLED = {b'script refused ': 2, b'dump refused ': 3, b'audit failed ': 3, b'input too long': 6, b'no memory': 7, b'read failed': 4}
CHUNK = 65536


def program_here() -> str:
    """The program that DAISYHOOK_DESK names, else the one that is built in this repository."""
    named = os.environ.get('DAISYHOOK_DESK')
    return named or str(Path(__file__).resolve().parents[2] / 'crates' / 'dex_desk' / 'out' / 'dex_desk')


def line_of(row: Text) -> bytes:
    """A row as a line of its own, without its end. Raises ValueError where it is none, or has quotes: then it could be several; and where it
    begins with a byte-order mark, which the desk drops: then it could be none."""
    line = bytes_of(row).removesuffix(b'\n').removesuffix(b'\r')
    if not line or line.startswith(BOM_UTF8) or any(sign in line for sign in (b'\n', b'\r', b'"')):
        raise ValueError(f'one row is wanted, on one line, without quotes and without a byte-order mark, and not {line[:80]!r}')
    return line


def instruction_of(row: Text) -> bytes:
    """The line of a row that `do` takes."""
    line = line_of(row)
    if line.split(b',', 1)[0] in (b'clock', b'book', b'dump'):
        raise ValueError(f'{line[:80]!r} is no instruction: call clock, book or dump')
    return line


def level_of(line: bytes) -> Level:
    """The price that a line of a book tells."""
    _, price, lots = line.split(b' ')
    return Level(int(price), int(lots), None)


class Desk:
    """A live exchange. `do` lets a row act and gives its entry; `book` and `dump` show what stands now.

    `script` is set-up rows, a whole script or a dump, or any text that `replay` takes; it must be no longer than 2^40
    bytes. What it is refused for is raised, as `replay` raises it. `timeout` is how many seconds each call waits for
    its answers, None as long as it takes.

    A row with a fault raises ScriptRefused, changes nothing, and the session goes on. DeskGone is raised where there is no session any
    more: the program is missing, it ended or was killed, or it did not answer in time (then it is killed); and by each call from then on.
    An answer that was given stands. One thread at a time may call a desk.
    """

    def __init__(self, script: Text, program: str | os.PathLike[str] | None = None, *, timeout: float | None = None) -> None:
        self._timeout = timeout
        self._gone: DeskGone | None = None
        self._last: bytes | None = None
        self._heard = b''
        self._lines: deque[bytes] = deque()
        given = bytes_of(script)
        if b'open' in (line.rstrip(b'\r') for line in given.split(b'\n')):
            raise ValueError('a script has no line `open`')
        self._start(program_here() if program is None else os.fspath(program))
        self._open(given if given.endswith(b'\n') or not given else given + b'\n')

    def _start(self, program: str) -> None:
        """Starts the program."""
        try:
            self._process = subprocess.Popen([program], stdin=subprocess.PIPE, stdout=subprocess.PIPE, bufsize=0)
        except OSError as error:
            raise DeskGone(f'no desk is started: {program}: {error.strerror}') from error
        for pipe in (self._process.stdin, self._process.stdout):
            os.set_blocking(pipe.fileno(), False)
        self._hears, self._hears_and_sends = select.poll(), select.poll()
        for waits in (self._hears, self._hears_and_sends):
            waits.register(self._process.stdout, select.POLLIN)
        self._hears_and_sends.register(self._process.stdin, select.POLLOUT)

    def _open(self, script: bytes) -> None:
        """Hands over the set-up."""
        until = self._until()
        said = self._line(until, script + b'open\n')
        told = [said]
        while not said.startswith((b'open ', *SETTLED)):
            said = self._line(until)
            told.append(said)
        if not said.startswith(b'open '):
            self._end(f'the set-up was refused: {said.decode()}')
            status = next(status for word, status in SETTLED.items() if said.startswith(word))
            raise refusal_of(status, b''.join(line + b'\n' for line in told))
        self.number = int(said[5:])
        """The number of the next row that is accepted: its place in the script that set-up and accepted rows are."""

    def __enter__(self) -> Desk:
        return self

    def __exit__(self, kind: object, error: object, trace: object) -> None:
        if kind is None and self._gone is None:
            self.close()
        self._end('it was closed')

    def __del__(self) -> None:
        if hasattr(self, '_process'):
            self._end('it was dropped')

    def do(self, row: Text) -> Answer:
        """Lets an instruction row act: its entry, or of a `swap` row both. Raises ScriptRefused where it has a fault; a row that the market
        refuses has an entry whose reply is `Refused`."""
        (answer,) = self.do_all([row])
        if isinstance(answer, ScriptRefused):
            raise answer
        return answer

    def do_all(self, rows: Iterable[Text]) -> list[Answer | ScriptRefused]:
        """Lets instruction rows act, one behind the other, sent at once: the answer of each. Where a row has a fault its ScriptRefused stands
        in its place, and the others act all the same."""
        lines = [instruction_of(row) for row in rows]
        until, text = self._until(), b''.join(line + b'\n' for line in lines)
        answers: list[Answer | ScriptRefused] = []
        for line in lines:
            answers.append(self._answer(line, until, text))
            text = b''
        return answers

    def clock(self, now: int) -> None:
        """Sets the clock of the rows that follow. It counts as a row."""
        self._first(f'clock,{now}'.encode(), self._until())
        self.number += 1

    def book(self, market: str, depth: int) -> Depth:
        """The best prices of a market, so many at most of each side. How many orders stand at a price is not told: `Level.orders` is None."""
        until = self._until()
        self._first(line_of(f'book,{market},{depth}'), until)
        found: dict[bytes, list[Level]] = {b'bid': [], b'ask': []}
        while (line := self._line(until)) != b'end':
            found[line[:3]].append(level_of(line))
        return Depth(tuple(found[b'bid']), tuple(found[b'ask']))

    def dump(self) -> bytes:
        """All accounts now, as a dump: a script may begin with it, and so may another desk."""
        until = self._until()
        told = [self._first(b'dump', until)]
        while told[-1] != b'enddump':
            told.append(self._line(until))
        return b''.join(line + b'\n' for line in told)

    def close(self) -> bytes:
        """Ends the session: the last accounts, as a dump. A desk that was closed gives them again."""
        if self._last is None:
            self._alive()
            rest = self._rest(self._until())
            if self._process.returncode != 0:
                self._raise(self._end_of(rest))
            self._end('it was closed')
            self._last = rest
        return self._last

    # What goes over the pipes.

    def _first(self, line: bytes, until: float | None) -> bytes:
        """The first line that a row is answered. Raises ScriptRefused where the row has a fault."""
        said = self._line(until, line + b'\n')
        if said.startswith(b'script refused '):
            raise ScriptRefused(said.decode() + '\n')
        return said

    def _answer(self, line: bytes, until: float | None, text: bytes) -> Answer | ScriptRefused:
        """What an instruction row is answered, where the text is sent first."""
        said = self._line(until, text)
        if said.startswith(b'script refused '):
            return ScriptRefused(said.decode() + '\n')
        entry = self._entry(said, until)
        self.number += 1
        words = line.split(b',')
        if words[0] != b'swap':
            return entry
        legs = Leg(words[3].decode(), entry), Leg(words[7].decode(), self._entry(self._line(until), until))
        return Swap(entry.row, entry.lane, legs)

    def _entry(self, said: bytes, until: float | None) -> Entry:
        """The entry that a line tells. A desk that cannot go on says why, behind its accounts where it has them still, and ends."""
        if said.startswith(b'entry '):
            return entry_of(said.decode())
        if said not in (b'dump', b'no memory'):
            self._raise(f'it answered {said[:80]!r}')
        while True:
            self._line(until)

    def _until(self) -> float | None:
        """Up to when this call may wait."""
        return None if self._timeout is None else time.monotonic() + self._timeout

    def _alive(self) -> None:
        """Raises where the session is over."""
        if self._gone is not None:
            raise self._gone

    def _line(self, until: float | None, text: bytes = b'') -> bytes:
        """Sends a text, and gives the next line that is answered."""
        self._alive()
        left = memoryview(text)
        while left or not self._lines:
            left = left[self._turn(left, until):]
        return self._lines.popleft()

    def _turn(self, left: memoryview, until: float | None) -> int:
        """Waits until something can be sent or read, and does it: how many bytes were sent. Answers are read while a text is sent, so two
        full pipes never wait for each other."""
        ready = self._wait_for(self._hears_and_sends if left else self._hears, until)
        if not ready or (until is not None and time.monotonic() > until):
            self._raise(f'it did not answer within {self._timeout} seconds')
        sent = 0
        for pipe, _ in ready:
            if pipe == self._process.stdout.fileno():
                self._read(until)
            else:
                sent = self._send(left)
        return sent

    def _wait_for(self, pipes: select.poll, until: float | None) -> list[tuple[int, int]]:
        """The pipes that are ready; none where time has run out."""
        return pipes.poll(None if until is None else max(0.0, 1000 * (until - time.monotonic())))

    def _send(self, left: memoryview) -> int:
        """Sends what fits. A desk that no longer reads is met when its answers end."""
        try:
            return os.write(self._process.stdin.fileno(), left[:CHUNK])
        except BlockingIOError:
            return 0
        except BrokenPipeError:
            return len(left)

    def _read(self, until: float | None) -> None:
        """Reads what was answered, as lines."""
        piece = os.read(self._process.stdout.fileno(), CHUNK)
        if not piece:
            self._process.stdin.close()
            self._wait(until)
            self._raise(self._end_of(b''.join(line + b'\n' for line in self._lines)))
        *lines, self._heard = (self._heard + piece).split(b'\n')
        self._lines += lines

    def _rest(self, until: float | None) -> bytes:
        """All that is answered when the input ends."""
        self._process.stdin.close()
        told = []
        while self._wait_for(self._hears, until):
            told.append(os.read(self._process.stdout.fileno(), 1 << 20))
            if not told[-1]:
                self._wait(until)
                return b''.join(told)
        self._raise(f'it did not end within {self._timeout} seconds')

    def _wait(self, until: float | None) -> None:
        """Waits for the program's end."""
        try:
            self._process.wait(None if until is None else max(0.1, until - time.monotonic()))
        except subprocess.TimeoutExpired:
            self._raise(f'it did not end within {self._timeout} seconds')

    # How it ends.

    def _end_of(self, said: bytes) -> str:
        """How the program ended, in words."""
        status = self._process.returncode
        how = f'it was ended by signal {-status}' if status < 0 else f'it ended with status {status}'
        last = said.rstrip(b'\n').rsplit(b'\n', 1)[-1].decode('ascii', 'replace')
        return f'{how}: {last}' if last and len(last) < 80 else how

    def _raise(self, why: str) -> None:
        """Ends the session, and says why."""
        self._end(why)
        raise self._gone

    def _end(self, why: str) -> None:
        """Ends the program, where it runs still, and frees the pipes. What was the reason first stays."""
        if self._gone is None:
            if self._process.poll() is None:
                self._process.kill()
            self._process.wait()
            self._gone = DeskGone(f'the desk is gone: {why}', self._process.returncode)
        self._process.stdin.close()
        self._process.stdout.close()
