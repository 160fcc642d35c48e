"""The desk of the gateway: the program behind two pipes, asked in batches."""

from __future__ import annotations

import asyncio
from collections.abc import Callable
from typing import Any, cast

# What the answer of a row begins with, where it has no fault.
FIRST = {b'do': b'entry ', b'ix': b'entry ', b'swap': b'entry ', b'clock': b'clock ', b'book': b'book', b'dump': b'dump'}
LAST = {b'book': b'end', b'dump': b'enddump'}


class DeskGone(Exception):
    """There is no desk any more; the text says why."""


class SetupRefused(Exception):
    """The set-up is no script; the text is the desk's."""


def is_whole(word: bytes, answer: list[bytes]) -> bool:
    """Whether the lines are all of what a row with this first field is answered."""
    if answer[0].startswith(b'script refused '):
        return True
    if not answer[0].startswith(FIRST[word]):
        raise DeskGone(f'it answered {answer[0][:80].decode("ascii", "replace")}')
    return answer[-1] == LAST[word] if word in LAST else len(answer) == (2 if word == b'swap' else 1)


class Desk(asyncio.SubprocessProtocol):
    """A desk. `number` is the number of the row that is accepted next, in the script that its set-up and its rows are."""

    def __init__(self, on_loss: Callable[[], None]) -> None:
        self.number = 0
        self.gone: DeskGone | None = None
        self._on_loss = on_loss
        self._heard = b''
        self._words: list[bytes] = []
        self._answers: list[list[bytes]] = []
        self._answer: list[bytes] = []
        self._rest: bytearray | None = None
        self._waits: asyncio.Future[Any] | None = None
        self._ended = asyncio.Event()

    @classmethod
    async def start(cls, program: str, setup: bytes, on_loss: Callable[[], None]) -> Desk:
        """A desk over this set-up. `on_loss` is called when it is gone though nobody closed it; `gone` says why."""
        loop = asyncio.get_running_loop()
        try:
            _, desk = await loop.subprocess_exec(lambda: cls(on_loss), program, stderr=None)
        except OSError as error:
            raise DeskGone(f'{program}: {error.strerror}') from error
        await desk._open(setup)
        return desk

    async def _open(self, setup: bytes) -> None:
        self._waits = asyncio.get_running_loop().create_future()
        self._send(setup + b'open\n')
        said = (await self._waits).decode('ascii', 'replace')
        if not said.startswith('open '):
            await self.kill()
            raise SetupRefused(said)
        self.number = int(said[5:])

    def _send(self, text: bytes) -> None:
        self._input.write(text)

    async def ask(self, rows: list[tuple[bytes, bytes]]) -> list[list[bytes]]:
        """What rows are answered, each given by its first field and its line: the lines of each answer."""
        if self.gone is not None:
            raise self.gone
        self._waits = asyncio.get_running_loop().create_future()
        self._words, self._answers = [word for word, _ in rows], []
        self._send(b''.join(line + b'\n' for _, line in rows))
        answers: list[list[bytes]] = await self._waits
        for word, answer in zip(self._words, answers):
            self.number += word not in LAST and not answer[0].startswith(b'script refused ')
        return answers

    async def close(self) -> bytes:
        """Ends it: the last accounts, as a dump."""
        self._rest = bytearray()
        self._waits = asyncio.get_running_loop().create_future()
        self._input.close()
        rest: bytes = await self._waits
        return rest

    async def kill(self) -> None:
        """Ends it at once."""
        self._waits = None
        self._transport.close()
        await self._ended.wait()

    # Called by the loop.

    def connection_made(self, transport: asyncio.BaseTransport) -> None:
        self._transport = cast(asyncio.SubprocessTransport, transport)
        self._input = cast(asyncio.WriteTransport, self._transport.get_pipe_transport(0))

    def pipe_data_received(self, fd: int, data: bytes) -> None:
        if self._rest is not None:
            self._rest += data
            return
        *lines, self._heard = (self._heard + data).split(b'\n')
        try:
            for line in lines:
                self._take(line)
        except DeskGone as error:
            self._fail(error)

    def _take(self, line: bytes) -> None:
        """Takes a line that was answered."""
        if self.number == 0:
            if not line.startswith(b'finding '):
                self._done(line)
            return
        if len(self._answers) == len(self._words):
            raise DeskGone('it answered what was not asked')
        self._answer.append(line)
        if is_whole(self._words[len(self._answers)], self._answer):
            self._answers.append(self._answer)
            self._answer = []
            if len(self._answers) == len(self._words):
                self._done(self._answers)

    def _done(self, value: object) -> None:
        if self._waits is not None and not self._waits.done():
            self._waits.set_result(value)

    def _fail(self, error: DeskGone) -> None:
        self.gone = self.gone or error
        if self._waits is not None and not self._waits.done():
            self._waits.set_exception(error)

    def connection_lost(self, error: Exception | None) -> None:
        status = self._transport.get_returncode()
        if self._rest is not None and status == 0:
            self._done(bytes(self._rest))
        else:
            self._fail(DeskGone(f'it was ended by signal {-status}' if status is not None and status < 0 else f'it ended with status {status}'))
            self._on_loss()
        self._ended.set()
