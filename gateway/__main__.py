"""Reads the words of the command, and serves until it is told to stop."""

from __future__ import annotations

import argparse
import asyncio
import os
import signal
import sys
from pathlib import Path

from .clients import PATIENCE, Connection, Gate
from .exchange import CannotGoOn, Exchange
from .feed import Feed
from .log import MOST_ROWS, BadLog, Log
from .said import say
from .tokens import BadTokens, Tokens

ROOT = Path(__file__).resolve().parents[1]
LOCAL = ('127.0.0.1', '::1', 'localhost')


def words_of() -> argparse.Namespace:
    """The words of the command."""
    parser = argparse.ArgumentParser(prog='serve', description='Serves one desk to many clients. docs/SERVE.md tells more.')
    parser.add_argument('log', help='the folder of the log')
    parser.add_argument('--setup', metavar='FILE', help='the set-up, a script, with which a new log begins')
    parser.add_argument('--tokens', metavar='FILE', help='who may act for whom; without it everybody may watch only')
    parser.add_argument('--host', default='127.0.0.1', help='the address to listen on (127.0.0.1)')
    parser.add_argument('--port', type=int, default=7070, help='the port (7070; 0: any that is free)')
    parser.add_argument('--desk', metavar='PROGRAM', help='the program desk, else that of DAISYHOOK_DESK or the one built here')
    parser.add_argument('--rows', type=int, default=MOST_ROWS, help=f'rows of a part of the log ({MOST_ROWS})')
    parser.add_argument('--patience', type=float, default=PATIENCE, metavar='SECONDS',
                        help=f'how long a client may leave its answers unread, or say nothing without a token ({PATIENCE:.0f})')
    words = parser.parse_args()
    if words.patience <= 0:
        parser.error('--patience: above 0')
    if not 1 <= words.rows <= MOST_ROWS:
        parser.error(f'--rows: 1 to {MOST_ROWS}')
    return words


def program_of(words: argparse.Namespace) -> str:
    """The program desk."""
    return words.desk or os.environ.get('DAISYHOOK_DESK') or str(ROOT / 'crates' / 'dex_desk' / 'out' / 'dex_desk')


async def close_all(gate: Gate) -> None:
    """Closes all connections, with a moment for what they have not read yet."""
    for connection in list(gate.connections):
        connection.transport.close()
    for _ in range(100):
        if gate.connections:
            await asyncio.sleep(0.02)


async def serve(words: argparse.Namespace) -> None:
    """Serves."""
    tokens, feed, log = Tokens(words.tokens), Feed(), Log(words.log)
    setup = Path(words.setup).read_bytes() if words.setup else None
    if setup is not None and log.parts():
        say('the log goes on; the set-up is not read')
    exchange = Exchange(program_of(words), log, feed, words.rows)
    await exchange.open(setup)
    if log.dropped:
        say(f'the last line of the log was torn, and is dropped: {len(log.dropped)} bytes, a row that was not answered')
    gate = Gate(exchange, feed, tokens, (ROOT / 'desk.html').read_bytes(), words.patience)
    loop = asyncio.get_running_loop()
    server = await loop.create_server(lambda: Connection(gate), words.host, words.port)
    port = server.sockets[0].getsockname()[1]
    gate.hosts = frozenset(f'{name}:{port}'.encode() for name in (*LOCAL, '[::1]', words.host.lower()))
    if words.host not in LOCAL:
        say('this address is not local: tokens and rows go over the net as they are')

    def stop() -> None:
        gate.is_closing = True
        server.close()
        exchange.stop()

    for number in (signal.SIGTERM, signal.SIGINT):
        loop.add_signal_handler(number, stop)
    say(f'http://{words.host}:{port}/, log {words.log}, next row {exchange.number}')
    await exchange.run()
    await close_all(gate)


def main() -> int:
    """Serves; the exit status is 1 where it cannot, or cannot go on."""
    words = words_of()
    try:
        asyncio.run(serve(words))
    except (CannotGoOn, BadLog, BadTokens) as error:
        say(str(error))
        return 1
    except OSError as error:
        say(f'{error.filename or "the address"}: {error.strerror}')
        return 1
    say('stopped: all that was taken is answered')
    return 0


if __name__ == '__main__':
    sys.exit(main())
