"""Addresses and bytes as text: base58, base64, hexadecimal digits and labels."""

from __future__ import annotations

import base64
import binascii
import functools
import re

ALPHABET = "123456789ABCDEFGHJKLMNPQRSTUVWXYZabcdefghijkmnopqrstuvwxyz"
ADDRESS_BYTES = 32
LONGEST_LABEL = 24

_DIGIT_OF = {sign: digit for digit, sign in enumerate(ALPHABET)}
_LABEL = re.compile(r"[a-z0-9_]{1,24}")
_HEXADECIMAL = re.compile(r"0x[0-9a-f]{64}")
_LABEL_BYTES = frozenset(b"abcdefghijklmnopqrstuvwxyz0123456789_")
_PAIRS = tuple(first + second for first in ALPHABET for second in ALPHABET)
_SHORT = 64


@functools.lru_cache(maxsize=64)
def _scale(count: int) -> int:
    """58 to a power."""
    scale: int = 58**count
    return scale


def _number_of(digits: list[int]) -> int:
    """The number of base58 digits, the highest first; long ones in two parts, so that time grows less than with the square."""
    if len(digits) > _SHORT:
        low = _SHORT << ((len(digits) - 1) // _SHORT).bit_length() - 1
        return _number_of(digits[:-low]) * _scale(low) + _number_of(digits[-low:])
    number = 0
    for digit in digits:
        number = number * 58 + digit
    return number


def _digits_of(number: int, count: int) -> str:
    """The number in `count` base58 digits; long ones by halves."""
    if count > _SHORT:
        low = count // 2
        upper, lower = divmod(number, 58**low)
        return _digits_of(upper, count - low) + _digits_of(lower, low)
    pairs = []
    for _ in range((count + 1) // 2):
        number, pair = divmod(number, len(_PAIRS))
        pairs.append(_PAIRS[pair])
    return "".join(reversed(pairs))[-count:]


def base58_bytes(text: str, most: int) -> bytes:
    """The bytes of base58 text, `most` at most. ValueError where it is none or has more; what is far too long is not decoded."""
    if len(text) > most * 138 // 100 + 1:
        raise ValueError(f"{len(text)} signs are more than {most} bytes have")
    rest = text.lstrip("1")
    try:
        number = _number_of([_DIGIT_OF[sign] for sign in rest])
    except KeyError as unknown:
        raise ValueError(f"{unknown.args[0]!r} is no sign of base58") from None
    data = bytes(len(text) - len(rest)) + number.to_bytes((number.bit_length() + 7) // 8, "big")
    if len(data) > most:
        raise ValueError(f"{len(data)} bytes, and at most {most} are wanted")
    return data


def base58_text(data: bytes) -> str:
    """The bytes as base58 text."""
    rest = data.lstrip(b"\0")
    text = _digits_of(int.from_bytes(rest, "big"), len(rest) * 138 // 100 + 1).lstrip("1")
    return "1" * (len(data) - len(rest)) + text


@functools.lru_cache(maxsize=65536)
def base58_of(address: bytes) -> str:
    """An address as base58 text."""
    return base58_text(address)


def base64_bytes(text: str) -> bytes:
    """The bytes of base64 text, in the one way to write them. ValueError where it is none."""
    try:
        data = base64.b64decode(text.encode("ascii"), validate=True)
    except (binascii.Error, UnicodeEncodeError) as fault:
        raise ValueError(str(fault)) from None
    if base64_text(data) != text:
        raise ValueError("padding or unused bits are not as they have to be")
    return data


def base64_text(data: bytes) -> str:
    """The bytes as base64 text."""
    return base64.b64encode(data).decode("ascii")


@functools.lru_cache(maxsize=65536)
def address_of(word: str) -> bytes:
    """The address of a word: a label, `0x` and 64 hexadecimal digits, or base58. ValueError where it is none of these."""
    if _LABEL.fullmatch(word):
        return word.encode("ascii").ljust(ADDRESS_BYTES, b"\0")
    if _HEXADECIMAL.fullmatch(word):
        return bytes.fromhex(word[2:])
    if not 32 <= len(word) <= 44:
        raise ValueError("it is neither base58 of 32 bytes nor 0x and 64 digits nor a label of 1 to 24 of a to z, 0 to 9 and _")
    data = base58_bytes(word, len(word))
    if len(data) != ADDRESS_BYTES:
        raise ValueError(f"it is base58 of {len(data)} bytes, and an address has 32")
    return data


def address_of_dump(word: str) -> bytes:
    """The address of a word of a dump, which is no base58. ValueError where it is none."""
    if not _LABEL.fullmatch(word) and not _HEXADECIMAL.fullmatch(word):
        raise ValueError("it is neither 0x and 64 digits nor a label of 1 to 24 of a to z, 0 to 9 and _")
    return address_of(word)


def label_of(address: bytes) -> str | None:
    """The label that stands for an address, where there is one."""
    bare = address.rstrip(b"\0")
    if 0 < len(bare) <= LONGEST_LABEL and _LABEL_BYTES.issuperset(bare):
        return bare.decode("ascii")
    return None


def dump_word(address: bytes) -> str:
    """An address as scripts, dumps and reports write it: the label where there is one, else hexadecimal digits."""
    return label_of(address) or "0x" + address.hex()


def shown(address: bytes) -> str:
    """An address as messages and comparisons write it: the label where there is one, else base58, as the ledger's tools do."""
    return label_of(address) or base58_of(address)
