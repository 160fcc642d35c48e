"""Connections: lines of traders and watchers, and a browser's requests, on one port.

| Line | Is answered |
|---|---|
| `hello TOKEN` | `hello SIGNER ..`: rows of these signers may follow; or `gateway refused BadToken`, and the connection is closed |
| `watch` | `watching`, and from then on the lines of the feed |
| a row | what the desk answers it, in the order in which rows were sent; or `gateway refused REASON` |

A client that does not read its answers is read no further, so what waits for it is bounded by what it may have on its way.
"""

from __future__ import annotations

import asyncio
import socket
from typing import cast

from . import web
from .asked import LONGEST, Refused, Row, row_of
from .exchange import Exchange, Item
from .feed import Feed
from .said import Seldom
from .tokens import NOBODY, Tokens

# Rows of a client that may be on their way; what weighs more than one row: all accounts, and any row of somebody without a token.
IN_FLIGHT, DUMP, OF_NOBODY = 256, 128, 16
# Bytes of the feed that may wait to be read.
UNREAD = 1 << 20
# Watchers leave some seats to those who have a token.
MOST_CLIENTS, MOST_WATCHERS = 512, 384
# How many seconds a client may leave its answers unread, or say nothing though it has no token and does not watch.
PATIENCE = 60.0


class Gate:
    """What all connections share."""

    def __init__(self, exchange: Exchange, feed: Feed, tokens: Tokens, page: bytes, patience: float = PATIENCE) -> None:
        self.exchange, self.feed, self.tokens, self.page, self.patience = exchange, feed, tokens, page, patience
        self.wrong, self.cut = Seldom(), Seldom()
        self.connections: set[Connection] = set()
        self.hosts: frozenset[bytes] = frozenset()
        self.is_closing = False
        self._count = 0

    def enter(self, connection: Connection) -> int:
        """Takes a connection: its number."""
        self.connections.add(connection)
        self._count += 1
        return self._count


class Connection(asyncio.Protocol):
    """A connection, of which lines are read one by one."""

    def __init__(self, gate: Gate) -> None:
        self.gate, self.rights = gate, NOBODY
        self._heard = b''
        self._in_flight = 0
        self._is_paused = self._has_ended = self._is_web = self._has_asked = False
        self._clogged: float | None = None
        """Since when it has read nothing of answers that wait; None where few wait."""
        self._unread = 0

    def connection_made(self, transport: asyncio.BaseTransport) -> None:
        self.transport, self._loop = cast(asyncio.Transport, transport), asyncio.get_running_loop()
        # So that a peer that is gone without a word is met some time.
        transport.get_extra_info('socket').setsockopt(socket.SOL_SOCKET, socket.SO_KEEPALIVE, 1)
        self.number = self.gate.enter(self)
        self._stirred = self._loop.time()
        self._timer = self._loop.call_later(self.gate.patience / 2, self._look)
        if len(self.gate.connections) > MOST_CLIENTS:
            self._close_with(b'gateway refused Full\n')

    def connection_lost(self, error: Exception | None) -> None:
        self._timer.cancel()
        self.gate.connections.discard(self)
        self.gate.feed.subscribers.discard(self)

    @property
    def _is_watching(self) -> bool:
        return self in self.gate.feed.subscribers

    def _look(self) -> None:
        """Closes the connection where it does nothing but take a seat."""
        now, unread = self._loop.time(), self.transport.get_write_buffer_size()
        late = now - self.gate.patience
        if self._clogged is not None and unread < self._unread:
            self._clogged = now
        self._unread = unread
        if self._clogged is not None and self._clogged <= late and not self._is_watching:
            return self._cut_off()
        if self.rights is NOBODY and not self._is_watching and not self._in_flight and self._stirred <= late:
            return self._close_with(b'' if self._is_web else b'gateway refused Idle\n')
        self._timer = self._loop.call_later(self.gate.patience / 2, self._look)

    def data_received(self, data: bytes) -> None:
        if self._has_ended or self.transport.is_closing():
            return
        self._heard += data
        if not self._has_asked and self._heard.startswith(b'GET '):
            self._is_web = True
        if self._is_web:
            self._read_request()
        else:
            self._read_lines()

    def pause_writing(self) -> None:
        self._clogged, self._unread = self._loop.time(), self.transport.get_write_buffer_size()
        self._pause()

    def resume_writing(self) -> None:
        self._clogged = None
        self._read_on()

    def eof_received(self) -> bool:
        """What was sent is answered still; a watcher goes on watching."""
        self._has_ended = True
        self._close_when_done()
        return True

    # Lines.

    def _read_lines(self) -> None:
        """Takes lines, as long as not too many are on their way."""
        at = 0
        while not self._is_busy and not self.transport.is_closing():
            end = self._heard.find(b'\n', at)
            if (len(self._heard) if end < 0 else end) - at > LONGEST:
                return self._give_up('LineTooLong')
            if end < 0:
                break
            if self.gate.is_closing:
                return self._give_up('Closing')
            self._has_asked = True
            self._stirred = self._loop.time()
            self._take(self._heard[at:end].rstrip(b'\r'))
            at = end + 1
        self._heard = self._heard[at:]
        self._pause()

    def _read_on(self) -> None:
        """Takes what was heard and not read yet."""
        if self._heard and not self._is_web and not self.transport.is_closing():
            self._read_lines()
        self._pause()

    @property
    def _is_busy(self) -> bool:
        """Whether it has enough on its way, or does not read what it was answered."""
        return self._in_flight >= IN_FLIGHT or self._clogged is not None

    def _take(self, line: bytes) -> None:
        """Takes a line."""
        if line.startswith(b'hello '):
            self._greet(line[6:])
        elif line == b'watch':
            self._watch(b'watching\n', b'gateway refused Full\n')
        elif line.endswith((b' HTTP/1.1', b' HTTP/1.0')):
            self._close_with(b'gateway refused UnknownRow\n')
        elif line:
            self._send_on(line)

    def _watch(self, welcome: bytes, refusal: bytes) -> None:
        """Makes it a watcher, where there is a seat. Who watches already is told nothing again."""
        if not self._is_watching and len(self.gate.feed.subscribers) >= MOST_WATCHERS:
            return self._close_with(refusal)
        self._say(welcome)
        if not self._is_watching:
            self.gate.feed.add(self)

    def _greet(self, token: bytes) -> None:
        rights = self.gate.tokens.rights(token)
        if rights is None:
            self.gate.wrong.say(f'connection {self.number} gave a wrong token')
            return self._close_with(b'gateway refused BadToken\n')
        self.rights = rights
        self._put(None, b' '.join((b'hello', *rights.names)) + b'\n')

    def _send_on(self, line: bytes) -> None:
        """Hands a row to the exchange, or says why not."""
        try:
            self._put(row_of(line, self.rights), b'')
        except Refused as reason:
            self._refuse(str(reason))

    def _refuse(self, reason: str) -> None:
        self._put(None, f'gateway refused {reason}\n'.encode())

    def _put(self, row: Row | None, answer: bytes) -> None:
        """Puts a line into the one order, so that its answer stands behind those of the lines before."""
        weight = DUMP if row is not None and row.word == b'dump' else OF_NOBODY if self.rights is NOBODY else 1
        self._in_flight += weight
        self.gate.exchange.put(Item(self, row, answer, weight))

    def _pause(self) -> None:
        """Reads no more while it is busy."""
        if self._is_busy != self._is_paused and not self._has_ended and not self.transport.is_closing():
            self._is_paused = not self._is_paused
            (self.transport.pause_reading if self._is_paused else self.transport.resume_reading)()

    def _give_up(self, reason: str) -> None:
        """Takes no more; what was taken is answered still."""
        self._heard = b''
        self._has_ended = True
        self.gate.feed.subscribers.discard(self)
        self._refuse(reason)

    def answer(self, text: bytes, weight: int) -> None:
        """Gives answers of lines that weigh so much."""
        self._in_flight -= weight
        self._say(text)
        self._read_on()
        self._close_when_done()

    def tell(self, lines: list[bytes]) -> None:
        """Tells lines of the feed. A watcher that does not read them is cut off."""
        if self.transport.get_write_buffer_size() > UNREAD and not self.transport.is_closing():
            return self._cut_off()
        self._say(web.events_of(lines) if self._is_web else b''.join(lines))

    def _cut_off(self) -> None:
        self.gate.cut.say(f'connection {self.number} is cut off: it does not read')
        self.transport.abort()

    def _say(self, text: bytes) -> None:
        """Sends a text."""
        if not self.transport.is_closing():
            self.transport.write(text)

    def _close_with(self, text: bytes) -> None:
        self._say(text)
        self.transport.close()

    def _close_when_done(self) -> None:
        if self._has_ended and not self._in_flight and not self._is_watching:
            self.transport.close()

    # A browser.

    def _read_request(self) -> None:
        """Answers a request, once it is whole. A connection has one; what comes behind it is not read."""
        end = self._heard.find(b'\r\n\r\n')
        if end < 0 and len(self._heard) <= web.LONGEST and not self._has_asked:
            return
        request, self._heard = self._heard[:max(end, 0)], b''
        if self._has_asked:
            return
        self._has_asked = True
        if end < 0:
            return self._close_with(web.reply('431 Request Header Fields Too Large', b'too long\n'))
        answer = web.answer_of(request, self.gate.page, self.gate.hosts)
        if answer is not None:
            return self._close_with(answer)
        self._watch(web.EVENTS, web.reply('503 Service Unavailable', b'there are too many watchers\n'))
