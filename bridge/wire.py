"""Transactions that were not sent: the wire form of transactions and messages, in base64 or base58, legacy or of version 0."""

from __future__ import annotations

import json
from dataclasses import dataclass
from typing import Any, Callable, Optional

from bridge.accounts import read_address
from bridge.encoding import ADDRESS_BYTES, base58_bytes, base58_text, base64_bytes, shown
from bridge.files import is_json_text, json_files, json_values, name_of, read_bytes
from bridge.refusals import Refusal
from bridge.transactions import Call, Transaction, unsent_of_json

# What the ledger takes at most: bytes of a transaction, and accounts of one, whose numbers are bytes.
_MOST_BYTES, _MOST_ACCOUNTS = 1232, 256
_SIGNATURE_BYTES, _VERSION_BIT = 64, 0x80
_WHOLE = "give the text whole, as the wallet or the client made it"
_LOADED = 'say --loaded FILE, JSON with the lists "writable" and "readonly" of what its tables hold'


@dataclass(frozen=True)
class Loaded:
    """The accounts that a transaction looks up in tables, in the order of its numbers: those to be written, then the others."""

    source: str
    writable: tuple[bytes, ...]
    readonly: tuple[bytes, ...]


class _Fault(Exception):
    """Bytes that are no transaction or no message: at which place, and why."""


class _Bytes:
    """Bytes that are read from the front, each once."""

    def __init__(self, data: bytes) -> None:
        self.data = data
        self.place = 0

    def take(self, count: int, what: str) -> bytes:
        """The next bytes."""
        if len(self.data) - self.place < count:
            raise _Fault(f"byte {self.place}: {what} wants {count} bytes, and {len(self.data) - self.place} are left")
        self.place += count
        return self.data[self.place - count : self.place]

    def byte(self, what: str) -> int:
        """The next byte."""
        return self.take(1, what)[0]

    def count(self, what: str) -> int:
        """The next number of one to three bytes of seven bits each, the lowest first, in the shortest way to write it."""
        start, number = self.place, 0
        for shift in (0, 7, 14):
            byte = self.byte(what)
            number |= (byte & 0x7F) << shift
            if byte < 0x80:
                if number >= 2**16 or (byte == 0 and shift):
                    break
                return number
        raise _Fault(f"byte {start}: {what} is no number below 65,536 in its shortest form")

    def numbers(self, what: str) -> tuple[int, ...]:
        """The next bytes behind their count."""
        return tuple(self.take(self.count(f"the count of {what}"), what))

    def addresses(self, what: str) -> list[bytes]:
        """The next addresses behind their count."""
        return [self.take(ADDRESS_BYTES, what) for _ in range(self.count(f"the count of {what}"))]

    def end(self) -> None:
        """Refuses bytes behind the end."""
        if self.place != len(self.data):
            raise _Fault(f"byte {self.place}: {len(self.data) - self.place} bytes stand behind its end")


@dataclass(frozen=True)
class _Instruction:
    """An instruction as the wire has it: numbers of accounts, its data, and where it stands."""

    place: int
    program: int
    accounts: tuple[int, ...]
    data: bytes


@dataclass(frozen=True)
class _Message:
    """A message: how many sign, its own accounts, its instructions, and how many accounts it looks up to write and to read."""

    signers: int
    keys: list[bytes]
    instructions: list[_Instruction]
    writable: int
    readonly: int


def _version(given: _Bytes) -> bool:
    """Whether a message is of version 0, and not legacy."""
    if given.place == len(given.data) or not given.data[given.place] & _VERSION_BIT:
        return False
    version = given.byte("the version") ^ _VERSION_BIT
    if version:
        raise _Fault(f"byte {given.place - 1}: the message is of version {version}, and legacy ones and version 0 are read here")
    return True


def _check_header(place: int, header: bytes, keys: list[bytes]) -> None:
    """Refuses a header that does not fit the accounts, and an account that stands twice."""
    signers, read_signers, read_others = header
    if not read_signers < signers or signers + read_others > len(keys):
        raise _Fault(f"byte {place}: a header of {signers}, {read_signers} and {read_others} fits no {len(keys)} accounts")
    for number, key in enumerate(keys):
        if keys.index(key) != number:
            raise _Fault(f"byte {place + 3}: account {shown(key)} stands twice, as {keys.index(key)} and {number}")


def _instruction(given: _Bytes) -> _Instruction:
    """The next instruction."""
    place = given.place
    program, accounts = given.byte("an instruction's program"), given.numbers("an instruction's accounts")
    return _Instruction(place, program, accounts, given.take(given.count("the count of an instruction's data"), "an instruction's data"))


def _lookups(given: _Bytes) -> tuple[int, int]:
    """How many accounts a message looks up in tables, to write and to read."""
    writable = readonly = 0
    for _ in range(given.count("the count of lookup tables")):
        place = given.place
        given.take(ADDRESS_BYTES, "a lookup table")
        to_write, to_read = len(given.numbers("a table's numbers to write")), len(given.numbers("a table's numbers to read"))
        if to_write + to_read == 0:
            raise _Fault(f"byte {place}: it names a lookup table and looks nothing up in it")
        writable, readonly = writable + to_write, readonly + to_read
    return writable, readonly


def _check_numbers(message: _Message) -> None:
    """Refuses numbers of accounts that the message does not have."""
    total = len(message.keys) + message.writable + message.readonly
    if total > _MOST_ACCOUNTS:
        raise _Fault(f"it has {total} accounts, and at most {_MOST_ACCOUNTS} have numbers")
    for instruction in message.instructions:
        for number in instruction.accounts:
            if number >= total:
                raise _Fault(f"byte {instruction.place}: an instruction names account {number}, and there are {total}")
        if not 0 < instruction.program < len(message.keys):
            what = f"its program is account {instruction.program}, and one of 1 to {len(message.keys) - 1} can be"
            raise _Fault(f"byte {instruction.place}: an instruction is wrong: {what}")


def _message(given: _Bytes) -> _Message:
    """The message that goes from here to the end."""
    has_lookups = _version(given)
    place = given.place
    header, keys = given.take(3, "the header"), given.addresses("accounts")
    _check_header(place, header, keys)
    given.take(ADDRESS_BYTES, "the recent block's hash")
    instructions = [_instruction(given) for _ in range(given.count("the count of instructions"))]
    writable, readonly = _lookups(given) if has_lookups else (0, 0)
    given.end()
    message = _Message(header[0], keys, instructions, writable, readonly)
    _check_numbers(message)
    return message


def _read_message(data: bytes) -> tuple[str, _Message]:
    """A message alone, which has no name."""
    return "-", _message(_Bytes(data))


def _read_transaction(data: bytes) -> tuple[str, _Message]:
    """A transaction: its name, which is its first signature, and its message."""
    given = _Bytes(data)
    count = given.count("the count of signatures")
    if count == 0:
        raise _Fault("byte 0: it has no room for a signature")
    signatures = [given.take(_SIGNATURE_BYTES, "a signature") for _ in range(count)]
    message = _message(given)
    if message.signers != count:
        raise _Fault(f"byte 0: it has {count} signatures, and its message wants {message.signers}")
    return base58_text(signatures[0]), message


def _attempt(read: Callable[[bytes], tuple[str, _Message]], data: bytes) -> tuple[Optional[tuple[str, _Message]], str]:
    """What bytes are where they can be read so, or why they cannot."""
    try:
        return read(data), ""
    except _Fault as fault:
        return None, str(fault)


def _parsed(data: bytes, where: str) -> tuple[str, _Message]:
    """The transaction or the message that bytes are."""
    if len(data) > _MOST_BYTES:
        raise Refusal(where, f"it has {len(data)} bytes, and a transaction at most {_MOST_BYTES}", _WHOLE)
    sent, why = _attempt(_read_transaction, data)
    alone, why_alone = _attempt(_read_message, data)
    if sent and alone:
        raise Refusal(where, "its bytes are a transaction and a message at once", "give it as the JSON of getTransaction")
    found = sent or alone
    if found is None:
        raise Refusal(where, f"it is no transaction ({why}) and no message ({why_alone})", _WHOLE)
    return found


def _decoded(text: str, where: str) -> bytes:
    """The bytes of a text in base64 or base58. One that is both is what can be read as a transaction, or else base58, since few long
    texts in base64 have none of the signs that base58 lacks."""
    if len(text) > 2 * _MOST_BYTES:
        raise Refusal(where, f"it has {len(text)} signs, which are more than {_MOST_BYTES} bytes have", _WHOLE)
    found: list[bytes] = []
    whys = []
    for name, decode in (("base64", base64_bytes), ("base58", lambda word: base58_bytes(word, 2 * _MOST_BYTES))):
        try:
            found.append(decode(text))
        except ValueError as fault:
            whys.append(f"no {name}: {fault}")
    if not found:
        raise Refusal(where, "it is " + ", and ".join(whys), _WHOLE)
    good = [data for data in found if _attempt(_read_transaction, data)[0] or _attempt(_read_message, data)[0]]
    if len(good) > 1:
        raise Refusal(where, "it is a transaction as base64 and as base58", "give it as the JSON of getTransaction")
    return (good or found[::-1])[0]


def _with_loaded(message: _Message, loaded: Optional[Loaded], where: str) -> list[bytes]:
    """All accounts of a message by their numbers, those of tables behind."""
    if message.writable + message.readonly == 0:
        return message.keys
    if loaded is None:
        what = f"it looks up {message.writable} accounts to write and {message.readonly} to read in tables, which nobody gave"
        raise Refusal(where, what, _LOADED)
    given = len(loaded.writable), len(loaded.readonly)
    if given != (message.writable, message.readonly):
        what = f"it has {given[0]} accounts to write and {given[1]} to read, and {where} looks up {message.writable} and {message.readonly}"
        raise Refusal(loaded.source, what, "give them in the order of the transaction's numbers")
    return message.keys + list(loaded.writable + loaded.readonly)


def _transaction(text: str, source: str, where: str, loaded: Optional[Loaded]) -> Transaction:
    """The transaction that a text is."""
    name, message = _parsed(_decoded(text, where), where)
    keys = _with_loaded(message, loaded, where)
    if len(set(keys)) != len(keys):
        raise Refusal(where, "an account that it looks up in a table stands twice, or among its own", _WHOLE)
    calls = tuple(Call(str(number), keys[one.program], tuple(keys[place] for place in one.accounts), one.data)
                  for number, one in enumerate(message.instructions, 1))
    return Transaction(source, name, 0, None, False, tuple(keys[: message.signers]), calls, True, tuple(keys))


def read_loaded(path: str) -> Loaded:
    """The accounts of lookup tables, from a file."""
    lists: dict[str, tuple[bytes, ...]] = {}
    values = list(json_values(read_bytes(path), name_of(path)))
    for name in ("writable", "readonly"):
        words = values[0].get(name) if len(values) == 1 and isinstance(values[0], dict) else None
        if not isinstance(words, list):
            raise Refusal(name_of(path), f"it has no list `{name}`", 'give JSON with the lists "writable" and "readonly"')
        lists[name] = tuple(read_address(word, f"{name_of(path)}: {name}") for word in words)
    return Loaded(name_of(path), lists["writable"], lists["readonly"])


def _of_value(value: Any, source: str, number: int, loaded: Optional[Loaded]) -> list[Transaction]:
    """The transactions of a JSON value: a text, an answer of getTransaction, or a list of these."""
    where = f"{source}: transaction {number}"
    if isinstance(value, dict) and value.get("error") is not None:
        raise Refusal(source, f"the node answered with an error: {json.dumps(value['error'])[:120]}", "ask again")
    if isinstance(value, dict) and isinstance(value.get("result"), dict):
        value = value["result"]
    body = value.get("transaction") if isinstance(value, dict) else value
    if isinstance(body, list) and len(body) == 2 and body[1] in ("base64", "base58"):
        body = body[0]
    if isinstance(body, str):
        return [_transaction(body, source, where, loaded)]
    if isinstance(body, dict):
        return [unsent_of_json(value, source, number, (loaded.writable, loaded.readonly) if loaded else None)]
    raise Refusal(where, "it is no transaction in a form that is known here", "docs/LEDGER.md tells the forms and the commands")


def unsent_of_text(data: bytes, source: str, loaded: Optional[Loaded]) -> list[Transaction]:
    """The transactions of a file's bytes: JSON, or texts with space between."""
    if is_json_text(data):
        values = enumerate(json_values(data, source), 1)
        return [one for number, value in values for one in _of_value(value, source, number, loaded)]
    try:
        words = data.decode("utf-8-sig").split()
    except UnicodeDecodeError:
        raise Refusal(source, "it is no text", "give base64 or base58 text, or JSON") from None
    if not words:
        raise Refusal(source, "it is empty", _WHOLE)
    return [_transaction(word, source, f"{source}: transaction {number}", loaded) for number, word in enumerate(words, 1)]


def read_unsent(paths: list[str], loaded: Optional[Loaded]) -> list[Transaction]:
    """The transactions of files and folders, none of which was sent, in their order."""
    files = [file for given in paths for file in json_files(given)]
    return [one for path in files for one in unsent_of_text(read_bytes(path), name_of(path), loaded)]
