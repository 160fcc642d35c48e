"""Transactions in the wire form, written here from the JSON of getTransaction: the other way round than the command reads them."""

from __future__ import annotations

from typing import Any

from bridge.encoding import base58_bytes

BUDGET = "ComputeBudget111111111111111111111111111111"


def short(number: int) -> bytes:
    """A count: seven bits a byte, the lowest first."""
    return bytes([number]) if number < 128 else bytes([number & 127 | 128]) + short(number >> 7)


def listed(numbers: list[int]) -> bytes:
    """Bytes behind their count."""
    return short(len(numbers)) + bytes(numbers)


def key(word: str) -> bytes:
    """An address."""
    return base58_bytes(word, 32)


def message_of(message: dict[str, Any]) -> bytes:
    """The wire form of a message, of version 0 where it looks accounts up."""
    header, keys = message["header"], message["accountKeys"]
    tables = message.get("addressTableLookups")
    counts = [header[name] for name in ("numRequiredSignatures", "numReadonlySignedAccounts", "numReadonlyUnsignedAccounts")]
    data = (b"" if tables is None else b"\x80") + bytes(counts) + short(len(keys)) + b"".join(map(key, keys))
    data += key(message["recentBlockhash"]) + short(len(message["instructions"]))
    for one in message["instructions"]:
        body = base58_bytes(one["data"], 1024)
        data += bytes([one["programIdIndex"]]) + listed(one["accounts"]) + short(len(body)) + body
    if tables is not None:
        data += short(len(tables))
        for table in tables:
            data += key(table["accountKey"]) + listed(table["writableIndexes"]) + listed(table["readonlyIndexes"])
    return data


def transaction_of(transaction: dict[str, Any]) -> bytes:
    """The wire form of a transaction that nobody signed yet."""
    count = len(transaction["signatures"])
    return short(count) + bytes(64 * count) + message_of(transaction["message"])
