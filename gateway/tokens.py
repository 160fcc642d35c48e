"""Who may act for whom: a file of tokens.

A line is `TOKEN SIGNER ..`: whoever gives this token may send rows of these signers. A word `+clock` lets it set the clock, `+dump` ask for
all accounts. Empty lines and lines that begin with `#` say nothing.
"""

from __future__ import annotations

import hashlib
import hmac
import os
import re
from typing import NamedTuple

LABEL, DIGITS = re.compile(rb'[a-z0-9_]{1,24}'), re.compile(rb'0x[0-9a-f]{64}')
TOKEN = re.compile(rb'[!-~]{16,256}')
RIGHTS = (b'+clock', b'+dump')


class BadTokens(Exception):
    """The file of tokens cannot be used; the text says why, and has no token in it."""


class Rights(NamedTuple):
    """What a client may do: the signers whose rows it may send, by their addresses, and further rights."""

    signers: frozenset[bytes] = frozenset()
    others: frozenset[bytes] = frozenset()
    names: tuple[bytes, ...] = ()


NOBODY = Rights()


def address_of(word: bytes) -> bytes | None:
    """The 32 bytes that an address word means, or None where it is none. A label and its digits are one address."""
    if LABEL.fullmatch(word):
        return word.ljust(32, b'\0')
    return bytes.fromhex(word[2:].decode()) if DIGITS.fullmatch(word) else None


def word_of(address: bytes) -> bytes:
    """An address as it is printed: the label where it has one, else its digits."""
    label = address.rstrip(b'\0')
    return label if LABEL.fullmatch(label) else b'0x' + address.hex().encode()


def digest_of(token: bytes) -> bytes:
    """A sum of a token, so that tokens of any length are compared in one time."""
    return hashlib.sha256(token).digest()


def rights_of(words: list[bytes], where: str) -> Rights:
    """What the words behind a token say."""
    signers = {}
    for number, word in enumerate(words, 2):
        if word in RIGHTS:
            continue
        address = address_of(word)
        if address is None:
            raise BadTokens(f'{where}: word {number} is no signer, and neither +clock nor +dump')
        signers[address] = word
    return Rights(frozenset(signers), frozenset(word for word in words if word in RIGHTS), tuple(words))


class Tokens:
    """The tokens of a file, of which only sums are kept."""

    def __init__(self, path: str | None) -> None:
        self._known: dict[bytes, Rights] = {}
        if path is not None:
            self._read(path)

    def _read(self, path: str) -> None:
        try:
            with open(path, 'rb') as file:
                if os.fstat(file.fileno()).st_mode & 0o077:
                    raise BadTokens(f'{path}: others may read or write it (chmod 600 {path})')
                lines = file.read().splitlines()
        except OSError as error:
            raise BadTokens(f'{path}: {error.strerror}') from error
        for number, line in enumerate(lines, 1):
            words = line.split()
            if not words or words[0].startswith(b'#'):
                continue
            where = f'{path}, line {number}'
            if not TOKEN.fullmatch(words[0]):
                raise BadTokens(f'{where}: a token has 16 to 256 printable characters')
            if digest_of(words[0]) in self._known:
                raise BadTokens(f'{where}: this token stands in an earlier line')
            self._known[digest_of(words[0])] = rights_of(words[1:], where)

    def rights(self, token: bytes) -> Rights | None:
        """What a token allows, or None where it is none. It is compared with each of the file, whichever fits."""
        given, found = digest_of(token), None
        for known, rights in self._known.items():
            if hmac.compare_digest(known, given):
                found = rights
        return found
