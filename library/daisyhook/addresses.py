"""Addresses as words: a label, `0x` and 64 hexadecimal digits, or base58, as the ledger's tools have them."""

from __future__ import annotations

import re

LABEL_BYTES = frozenset(b'abcdefghijklmnopqrstuvwxyz0123456789_')
WORD = re.compile(r'[a-z0-9_]{1,24}|0x[0-9a-f]{64}')
DIGITS = {sign: digit for digit, sign in enumerate('123456789ABCDEFGHJKLMNPQRSTUVWXYZabcdefghijkmnopqrstuvwxyz')}
SIZE, SHORTEST_BASE58, LONGEST_BASE58 = 32, 32, 44


def address_at(data: bytes, place: int) -> str:
    """The address from a place on: its label where it has one, else `0x` and its digits."""
    word = data[place:place + SIZE]
    label = word.rstrip(b'\0')
    if 1 <= len(label) <= 24 and LABEL_BYTES.issuperset(label):
        return label.decode()
    return '0x' + word.hex()


def address_of(word: str) -> str:
    """The address of a word of a dump: its label where it has one, also where the word is `0x` and its digits."""
    return address_at(bytes.fromhex(word[2:]), 0) if len(word) == 66 else word


def base58_bytes(word: str) -> bytes:
    """The 32 bytes of an address in base58. ValueError where it is none."""
    ones, number = len(word) - len(word.lstrip('1')), 0
    for sign in word:
        if sign not in DIGITS:
            raise ValueError(f'{word!r} is no address: {sign!r} is no sign of base58')
        number = number * 58 + DIGITS[sign]
    data = bytes(ones) + number.to_bytes((number.bit_length() + 7) // 8, 'big')
    if len(data) != SIZE:
        raise ValueError(f'{word!r} is no address: it is base58 of {len(data)} bytes, and an address has {SIZE}')
    return data


def address_bytes(word: str) -> bytes:
    """The 32 bytes of an address: a label, `0x` and 64 digits, or base58. ValueError where the word is none of
    these."""
    if WORD.fullmatch(word):
        return bytes.fromhex(word[2:]) if len(word) == 66 else word.encode().ljust(SIZE, b'\0')
    if SHORTEST_BASE58 <= len(word) <= LONGEST_BASE58:
        return base58_bytes(word)
    wanted = '1 to 24 of a to z, 0 to 9 and _, or 0x and 64 digits, or base58 is wanted'
    raise ValueError(f'{word!r} is no address: {wanted}')


def address_word(word: str) -> str:
    """The word of an address as dumps and reports have it. ValueError where it is none."""
    return word if len(word) <= 24 and WORD.fullmatch(word) else address_at(address_bytes(word), 0)
