"""Transactions as the ledger's nodes print them: which succeeded, their accounts, and their instructions with inner calls."""

from __future__ import annotations

import json
from dataclasses import dataclass
from typing import Any, Iterator, NamedTuple, Optional

from bridge.accounts import read_address
from bridge.encoding import base58_bytes, base58_of, shown
from bridge.files import json_files, json_values, read_bytes
from bridge.refusals import Refusal

_WHOLE = "save the answer of getTransaction whole and as it is"
_PLAIN = 'ask again with "encoding": "json"'
_SIGNATURE_BYTES = 64
# The most bytes of data that one call hands to another.
_MOST_CALL_DATA = 10240


@dataclass(frozen=True)
class Call:
    """A call of a program: its number in the transaction (`2`, or `2.1` for the first inner call of the second), accounts and data."""

    number: str
    program: bytes
    accounts: tuple[bytes, ...]
    data: bytes


@dataclass(frozen=True)
class Transaction:
    """A transaction: where it was read, its name, slot and time, its signers, its calls (none where it failed), and
    of one that was not sent all accounts by their numbers."""

    source: str
    signature: str
    slot: int
    time: Optional[int]
    failed: bool
    signers: tuple[bytes, ...]
    calls: tuple[Call, ...]
    is_told_whole: bool
    keys: tuple[bytes, ...] = ()

    def fault(self, what: str, remedy: str) -> Refusal:
        """What is wrong with this transaction."""
        return Refusal(f"{self.source}: transaction {self.signature}", what, remedy)


class _Reader:
    """One transaction's JSON, with the name under which its faults are told."""

    def __init__(self, value: dict[str, Any], where: str) -> None:
        self.value = value
        self.where = where

    def fault(self, what: str, remedy: str = _WHOLE) -> Refusal:
        """What is wrong with the transaction."""
        return Refusal(self.where, what, remedy)

    def member(self, value: Any, name: str, kind: type) -> Any:
        """A member of an object, which has to be of a kind."""
        found = value.get(name) if isinstance(value, dict) else None
        if not isinstance(found, kind) or isinstance(found, bool):
            raise self.fault(f"its member `{name}` is missing or has another form")
        return found

    def index(self, value: Any, addresses: list[bytes]) -> bytes:
        """The address that a number of the transaction's accounts stands for."""
        if not isinstance(value, int) or isinstance(value, bool) or not 0 <= value < len(addresses):
            raise self.fault(f"{json.dumps(value)[:40]} is no number of one of its {len(addresses)} accounts", _PLAIN)
        return addresses[value]


class _Keys(NamedTuple):
    """All accounts of a transaction in the order of their numbers, the loaded ones behind; how many were not loaded."""

    addresses: list[bytes]
    own: int


def _keys(reader: _Reader, message: Any, meta: dict[str, Any]) -> _Keys:
    """The accounts of a transaction, each once."""
    words = list(reader.member(message, "accountKeys", list))
    own = len(words)
    if any(isinstance(word, dict) for word in words):
        raise reader.fault("it has the encoding jsonParsed, which is not read here", _PLAIN)
    loaded = meta.get("loadedAddresses")
    if isinstance(loaded, dict):
        words += reader.member(loaded, "writable", list) + reader.member(loaded, "readonly", list)
    elif message.get("addressTableLookups"):
        raise reader.fault("it looks accounts up in tables, and has no loadedAddresses",
                           'ask again with "maxSupportedTransactionVersion": 0')
    addresses = [read_address(word, reader.where) for word in words]
    once: set[bytes] = set()
    for address in addresses:
        if address in once:
            raise reader.fault(f"its account {shown(address)} stands twice")
        once.add(address)
    return _Keys(addresses, own)


def _call(reader: _Reader, value: Any, keys: _Keys, number: str) -> Call:
    """A call from its JSON."""
    if isinstance(value, dict) and ("parsed" in value or "programId" in value):
        raise reader.fault("it has the encoding jsonParsed, which is not read here", _PLAIN)
    index = reader.member(value, "programIdIndex", int)
    program = reader.index(index, keys.addresses)
    if "." not in number and index >= keys.own:
        raise reader.fault(f"the program of its instruction {number} is an account that was loaded, {shown(program)}")
    accounts = tuple(reader.index(place, keys.addresses) for place in reader.member(value, "accounts", list))
    try:
        data = base58_bytes(reader.member(value, "data", str), _MOST_CALL_DATA)
    except ValueError as fault:
        raise reader.fault(f"the data of its instruction {number} is no base58 that is read here ({fault})") from None
    return Call(number, program, accounts, data)


def _inner_values(reader: _Reader, meta: dict[str, Any], count: int) -> dict[int, list[Any]]:
    """The inner calls by the number of the instruction that made them."""
    inner: dict[int, list[Any]] = {}
    told = meta.get("innerInstructions")
    for group in reader.member(meta, "innerInstructions", list) if told is not None else []:
        index = reader.member(group, "index", int)
        if not 0 <= index < count:
            raise reader.fault(f"it has inner calls of an instruction {index}, and has {count} instructions")
        if index in inner:
            raise reader.fault(f"the inner calls of instruction {index} (from 0) stand twice")
        inner[index] = reader.member(group, "instructions", list)
    return inner


def _calls(reader: _Reader, message: Any, meta: dict[str, Any], keys: _Keys) -> Iterator[Call]:
    """The calls of a transaction in their order: each instruction, and behind it the calls that it made."""
    values = reader.member(message, "instructions", list)
    inner = _inner_values(reader, meta, len(values))
    for number, value in enumerate(values):
        yield _call(reader, value, keys, str(number + 1))
        for place, called in enumerate(inner.get(number, []), 1):
            yield _call(reader, called, keys, f"{number + 1}.{place}")


def _signature_fault(signature: Any) -> Optional[str]:
    """Why a word is no signature, if it is none."""
    try:
        length = len(base58_bytes(signature, _SIGNATURE_BYTES)) if isinstance(signature, str) else 0
    except ValueError as fault:
        return str(fault)
    return None if length == _SIGNATURE_BYTES else f"{length} bytes"


def _signatures_of(value: Any, source: str, number: int) -> list[str]:
    """The signatures of a transaction, of which the first is its name."""
    where = f"{source}: transaction {number}"
    signatures = value.get("signatures") if isinstance(value, dict) else None
    if not isinstance(signatures, list) or not signatures:
        raise Refusal(where, "it has no signature in the encoding `json`", _PLAIN)
    for signature in signatures:
        why = _signature_fault(signature)
        if why is not None:
            raise Refusal(where, f"{json.dumps(signature)[:100]} is no signature, which is base58 of 64 bytes ({why})", _WHOLE)
    return signatures


def _has_failed(reader: _Reader, meta: dict[str, Any]) -> bool:
    """Whether a transaction failed, which its fault tells; its older member `status` must say the same."""
    fault = meta["err"]
    if fault is not None and not (isinstance(fault, (str, dict)) and fault):
        raise reader.fault(f"its `err` is {json.dumps(fault)[:40]}, which is neither null nor a fault")
    status = meta.get("status")
    if status is not None and (not isinstance(status, dict) or list(status) != ["Ok" if fault is None else "Err"]):
        raise reader.fault("its `err` and its `status` do not say the same")
    return fault is not None


def _signers(reader: _Reader, message: Any, keys: _Keys, signatures: int) -> tuple[bytes, ...]:
    """The accounts that signed: as many from the front as there are signatures, and none that was loaded."""
    wanted = reader.member(reader.member(message, "header", dict), "numRequiredSignatures", int)
    if not 1 <= wanted <= keys.own:
        raise reader.fault(f"it wants {wanted} signatures and has {keys.own} accounts that can sign")
    if wanted != signatures:
        raise reader.fault(f"it wants {wanted} signatures and has {signatures}")
    return tuple(keys.addresses[:wanted])


def _slot_of(reader: _Reader) -> int:
    """The slot of a transaction."""
    slot: int = reader.member(reader.value, "slot", int)
    if not 0 <= slot < 2**64:
        raise reader.fault(f"its slot is {slot}")
    return slot


def _time_of(reader: _Reader) -> Optional[int]:
    """The time of a transaction's block, where it is told."""
    time: Any = reader.value.get("blockTime")
    if time is not None and (not isinstance(time, int) or isinstance(time, bool)):
        raise reader.fault("its `blockTime` is no number")
    return time


def _transaction(value: dict[str, Any], source: str, number: int) -> Transaction:
    """A transaction from its JSON."""
    body = value["transaction"]
    signatures = _signatures_of(body, source, number)
    reader = _Reader(value, f"{source}: transaction {signatures[0]}")
    meta = value.get("meta")
    if not isinstance(meta, dict) or "err" not in meta:
        raise reader.fault("it has no `meta` with `err`, so nobody can tell whether it succeeded", "ask a node that keeps it")
    message = reader.member(body, "message", dict)
    keys = _keys(reader, message, meta)
    signers = _signers(reader, message, keys, len(signatures))
    time = _time_of(reader)
    failed = _has_failed(reader, meta)
    calls = () if failed else tuple(_calls(reader, message, meta, keys))
    return Transaction(source, signatures[0], _slot_of(reader), time, failed, signers, calls, meta.get("innerInstructions") is not None)


def unsent_of_json(value: dict[str, Any], source: str, number: int, loaded: Optional[tuple[tuple[bytes, ...], tuple[bytes, ...]]]) -> Transaction:
    """A transaction that is to be tried, from the JSON of getTransaction. Where `meta` stands beside it, its inner calls and loaded
    accounts are taken, and not what it says of the outcome; `loaded` are accounts of tables that nobody looked up yet."""
    body = value["transaction"]
    signatures = _signatures_of(body, source, number)
    reader = _Reader(value, f"{source}: transaction {signatures[0]}")
    meta = dict(reader.member(value, "meta", dict)) if value.get("meta") is not None else {}
    if loaded is not None and "loadedAddresses" not in meta:
        meta["loadedAddresses"] = dict(zip(("writable", "readonly"), (list(map(base58_of, part)) for part in loaded)))
    message = reader.member(body, "message", dict)
    keys = _keys(reader, message, meta)
    signers = _signers(reader, message, keys, len(signatures))
    time = _time_of(reader)
    calls = tuple(_calls(reader, message, meta, keys))
    return Transaction(source, signatures[0], 0, time, False, signers, calls, True, tuple(keys.addresses))


def _read_value(value: Any, source: str, number: int) -> Iterator[Transaction]:
    """The transactions of a JSON value; `number` is how many of the file come before."""
    if value is None:
        raise Refusal(f"{source}: transaction {number + 1}", "the node answered null: it does not have it", "ask a node that keeps it")
    if isinstance(value, list):
        for place, part in enumerate(value):
            yield from _read_member(part, source, number + place)
    elif isinstance(value, dict) and (value.get("error") is not None or ("error" in value and "result" not in value)):
        raise Refusal(source, f"the node answered with an error: {json.dumps(value['error'])[:120]}", "ask again")
    elif isinstance(value, dict) and "result" in value:
        yield from _read_value(value["result"], source, number)
    elif isinstance(value, dict) and "transaction" in value:
        yield _transaction(value, source, number + 1)
    else:
        raise Refusal(source, "it holds no transaction in a form that is known here", "docs/LEDGER.md tells the forms and the commands")


def _read_member(value: Any, source: str, number: int) -> Iterator[Transaction]:
    """The transactions of a member of a list, which is no empty list."""
    if value == []:
        raise Refusal(source, "an empty list stands in a list", "docs/LEDGER.md tells the forms and the commands")
    yield from _read_value(value, source, number)


def transactions_of_text(data: bytes, source: str) -> list[Transaction]:
    """The transactions of a file's bytes."""
    try:
        return [one for number, value in enumerate(json_values(data, source)) for one in _read_member(value, source, number)]
    except RecursionError:
        raise Refusal(source, "it is no JSON of transactions: it is nested too deep", _WHOLE) from None


def each_transaction(paths: list[str]) -> Iterator[Transaction]:
    """The transactions of files and folders, one after the other, in their order, which has to be that of the ledger."""
    seen: dict[str, str] = {}
    slot = 0
    for path in (file for given in paths for file in json_files(given)):
        for transaction in transactions_of_text(read_bytes(path), path):
            if transaction.signature in seen:
                raise transaction.fault(f"it stands in {seen[transaction.signature]} already", "give each transaction once")
            if transaction.slot < slot:
                what = f"its slot {transaction.slot} comes before the slot {slot} of the one before it"
                raise transaction.fault(what, "give the transactions oldest first")
            seen[transaction.signature], slot = path, transaction.slot
            yield transaction


def read_transactions(paths: list[str]) -> list[Transaction]:
    """All transactions of files and folders in their order."""
    return list(each_transaction(paths))
