"""What a line of a client asks, and whether it may.

A line is taken only where it is plain: printable characters without quotes. So its fields are what stands between commas, for the gateway as for
the desk, and a line is one row.
"""

from __future__ import annotations

import re
from base64 import b64decode
from binascii import Error as BadBase64
from typing import NamedTuple

from .tokens import Rights, address_of, word_of

LONGEST = 4096
DEEPEST = 100
PLAIN = re.compile(rb'[ !#-~]+')
# The place of the signer in a row, and the places of its markets.
SIGNER = {b'do': 3, b'ix': 3, b'swap': 2}
MARKETS = {b'do': (2,), b'ix': (2,), b'swap': (3, 7)}
SIDES = {0: b'bid', 1: b'ask'}


class Refused(Exception):
    """A line that is not handed to the desk; its text is the reason's name."""


class Row(NamedTuple):
    """A row for the desk: its line, its first field, and all of them."""

    line: bytes
    word: bytes
    fields: list[bytes]

    @property
    def is_logged(self) -> bool:
        """Whether it is a row of the script that the log is, where it has no fault."""
        return self.word in SIGNER or self.word == b'clock'


def row_of(line: bytes, rights: Rights) -> Row:
    """The row that a line is, where a client with these rights may send it."""
    if not PLAIN.fullmatch(line):
        raise Refused('NotPlain')
    fields = line.split(b',')
    word = fields[0]
    if word in SIGNER:
        check_signer(fields, SIGNER[word], rights)
    elif word in (b'clock', b'dump'):
        if b'+' + word not in rights.others:
            raise Refused('NotAllowed')
    elif word == b'book':
        check_depth(fields)
    else:
        raise Refused('UnknownRow')
    return Row(line, word, fields)


def check_signer(fields: list[bytes], place: int, rights: Rights) -> None:
    """Refuses a row whose signer is none of the client's."""
    signer = address_of(fields[place]) if place < len(fields) else None
    if signer is None or signer not in rights.signers:
        raise Refused('NotYourSigner')


def check_depth(fields: list[bytes]) -> None:
    """Refuses to show more prices than a watcher needs."""
    if len(fields) == 3 and fields[2].isdigit() and (len(fields[2]) > len(str(DEEPEST)) or int(fields[2]) > DEEPEST):
        raise Refused('TooDeep')


def market_word(word: bytes) -> bytes:
    """A market's address as it is printed."""
    address = address_of(word)
    return word if address is None else word_of(address)


def markets_of(row: Row) -> list[bytes]:
    """The markets that an instruction row names, in the order of its answers. A row that is cut short names fewer."""
    return [market_word(row.fields[place]) for place in MARKETS.get(row.word, ()) if place < len(row.fields)]


def sides_of(row: Row) -> list[bytes]:
    """The sides of the orders of an instruction row, as far as it has any, in the order of its answers."""
    if row.word == b'do':
        return row.fields[9].split(b' ')[1:2]
    return [side_in(row.fields[place]) for place in {b'ix': (9,), b'swap': (6, 10)}[row.word]]


def side_in(data: bytes) -> bytes:
    """The side in an instruction's bytes."""
    try:
        return SIDES.get(int.from_bytes(b64decode(data)[5:9], 'little'), b'-')
    except BadBase64:
        return b'-'


def trade_of(market: bytes, side: bytes, entry: bytes) -> bytes | None:
    """The line of the trade that an entry tells, or None where nothing filled: `trade MARKET ROW SIDE LOTS QUOTE`."""
    words = entry.split(b' ')
    if words[3] != b'ok' or words[4] not in (b'order', b'take'):
        return None
    lots, quote = words[7:9] if words[4] == b'order' else words[5:7]
    return None if lots == b'0' else b'trade %s %s %s %s %s\n' % (market, words[2], side, lots, quote)
