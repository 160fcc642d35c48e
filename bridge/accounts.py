"""Accounts as JSON, in the forms in which the ledger's tools print them, and as a test validator loads them."""

from __future__ import annotations

import json
import os
from dataclasses import dataclass
from typing import Any, Iterable, Iterator, NamedTuple, Optional

from bridge.encoding import address_of, base58_bytes, base58_of, base64_bytes, base64_text, shown
from bridge.files import json_files, json_values, plain_file, read_bytes
from bridge.refusals import Refusal
from bridge.snapshot import Snapshot
from bridge.tables import RENT, TOKEN_PROGRAM, rent_exempt

# The most bytes of an account that are read as base58, which takes time by more than their number: the public program's largest queue.
_MOST_BASE58 = 262156
TOKEN_KINDS = ("mint", "wallet", "coin_vault", "pc_vault")


@dataclass(frozen=True)
class Account:
    """An account of the ledger: where it was read, its address, the program that owns it, its bytes, and of which slot it is."""

    source: str
    address: bytes
    owner: bytes
    data: bytes
    slot: Optional[int]

    def fault(self, what: str, remedy: str) -> Refusal:
        """What is wrong with this account."""
        return Refusal(f"{self.source}: account {shown(self.address)}", what, remedy)


class _Addresses:
    """The addresses that stand beside a file whose answers have none, in the order of the request."""

    def __init__(self, source: str) -> None:
        self._source = source
        self.path = f"{os.path.splitext(source)[0]}.addresses"
        self._words: Optional[list[str]] = None
        self._used = 0

    def _read(self) -> list[str]:
        """The words of the file of addresses."""
        if not os.path.exists(self.path):
            remedy = f"write the addresses of the request, one a line and in its order, into {self.path}"
            raise Refusal(self._source, "an answer in it has no address", remedy)
        try:
            return read_bytes(plain_file(self.path)).decode("utf-8-sig").split()
        except UnicodeDecodeError:
            raise Refusal(self.path, "it is no text", "write one address a line") from None

    def take(self) -> bytes:
        """The next address."""
        if self._words is None:
            self._words = self._read()
        if self._used == len(self._words):
            remedy = "write the addresses of the request, one a line and in its order"
            raise Refusal(self.path, f"{self._source} has more answers than the {self._used} addresses here", remedy)
        self._used += 1
        return read_address(self._words[self._used - 1], f"{self.path}: address {self._used}")

    def finish(self) -> None:
        """Refuses addresses that no answer belongs to."""
        if self._words is not None and self._used != len(self._words):
            what = f"it has {len(self._words)} addresses, and {self._source} has {self._used} answers without one"
            raise Refusal(self.path, what, "write the addresses of the request, one a line and in its order")


class _Source(NamedTuple):
    """Where accounts are read: the file, the addresses beside it, and the slot that the answer tells."""

    path: str
    addresses: _Addresses
    slot: Optional[int]


def read_address(word: Any, where: str) -> bytes:
    """The address of a word of an input."""
    if not isinstance(word, str):
        raise Refusal(where, f"{json.dumps(word)[:60]} is no address", "give base58 text")
    try:
        return address_of(word)
    except ValueError as fault:
        raise Refusal(where, f"{word!r} is no address: {fault}", "give base58, 0x and 64 digits, or a label") from None


def _decoded(text: Any, encoding: Any, where: str) -> bytes:
    """The bytes of an account's data in an encoding."""
    if not isinstance(text, str):
        raise Refusal(where, "its data is no text", 'ask again with "encoding": "base64"')
    try:
        if encoding == "base64":
            return base64_bytes(text)
        if encoding == "base58":
            return base58_bytes(text, _MOST_BASE58)
    except ValueError as fault:
        remedy = 'ask again with "encoding": "base64"' if encoding == "base58" else "save the answer of the tool whole and as it is"
        raise Refusal(where, f"its data is no {encoding} that is read here ({fault})", remedy) from None
    raise Refusal(where, f"its data has the encoding {encoding}, which is not read here", 'ask again with "encoding": "base64"')


def _data_of(data: Any, where: str) -> bytes:
    """The bytes of the member `data` of an account."""
    if isinstance(data, str):
        return _decoded(data, "base58", where)
    if isinstance(data, list) and len(data) == 2:
        return _decoded(data[0], data[1], where)
    if isinstance(data, dict):
        remedy = 'ask again with "encoding": "base64"'
        raise Refusal(where, "its data has the encoding jsonParsed, which is not read here", remedy)
    raise Refusal(where, "its data is neither text nor a text with its encoding", 'ask again with "encoding": "base64"')


def _account(value: dict[str, Any], address: bytes, source: _Source) -> Account:
    """An account from its JSON."""
    where = f"{source.path}: account {shown(address)}"
    if "owner" not in value or "data" not in value:
        raise Refusal(where, "it has no member `owner` or no member `data`", "save the answer of the tool whole and as it is")
    owner = read_address(value["owner"], f"{where}: owner")
    data = _data_of(value["data"], where)
    space = value.get("space", len(data))
    if space != len(data):
        what = f"its data has {len(data)} bytes, and `space` says {json.dumps(space)[:30]}"
        raise Refusal(where, what, "ask for the whole account, without dataSlice")
    return Account(source.path, address, owner, data, source.slot)


def _missing(address: bytes, source: _Source) -> Refusal:
    """An account that the node does not have."""
    remedy = "ask again for an account that exists, or leave it out of the request"
    return Refusal(f"{source.path}: account {shown(address)}", "the node answered null: there is no such account", remedy)


def _named(value: dict[str, Any], source: _Source) -> Account:
    """An account with its address beside it."""
    address = read_address(value["pubkey"], f"{source.path}: pubkey")
    if value["account"] is None:
        raise _missing(address, source)
    if not isinstance(value["account"], dict):
        raise Refusal(f"{source.path}: account {shown(address)}", "its member `account` is no account", "save the answer as it is")
    return _account(value["account"], address, source)


def _with_context(value: dict[str, Any], source: _Source) -> _Source:
    """The source with the slot that an answer tells."""
    slot = value["context"].get("slot") if isinstance(value["context"], dict) else None
    return source._replace(slot=slot if isinstance(slot, int) and not isinstance(slot, bool) else None)


def _read_object(value: dict[str, Any], source: _Source) -> Iterator[Account]:
    """The accounts of a JSON object: an answer, one account with its address, or one without."""
    if value.get("error") is not None or ("error" in value and "result" not in value):
        raise Refusal(source.path, f"the node answered with an error: {json.dumps(value['error'])[:120]}", "ask again")
    if "result" in value:
        yield from _read_value(value["result"], source)
    elif "context" in value and "value" in value:
        yield from _read_value(value["value"], _with_context(value, source))
    elif "pubkey" in value and "account" in value:
        yield _named(value, source)
    elif "data" in value and "owner" in value:
        yield _account(value, source.addresses.take(), source)
    elif "transaction" in value:
        raise Refusal(source.path, "it holds a transaction and no account", "give transactions to `ledger script`")
    else:
        raise Refusal(source.path, "it holds no account in a form that is known here", "docs/LEDGER.md tells the forms and the commands")


def _read_value(value: Any, source: _Source) -> Iterator[Account]:
    """The accounts of a JSON value."""
    if value is None:
        raise _missing(source.addresses.take(), source)
    if isinstance(value, dict):
        yield from _read_object(value, source)
    elif isinstance(value, list):
        for part in value:
            yield from _read_member(part, source)
    else:
        raise Refusal(source.path, f"{json.dumps(value)[:40]} is no account", "docs/LEDGER.md tells the forms and the commands")


def _read_member(value: Any, source: _Source) -> Iterator[Account]:
    """The accounts of a member of a list, which is no empty list."""
    if value == []:
        raise Refusal(source.path, "an empty list stands in a list", "docs/LEDGER.md tells the forms and the commands")
    yield from _read_value(value, source)


def accounts_of_text(data: bytes, path: str) -> list[Account]:
    """The accounts of a file's bytes."""
    addresses = _Addresses(path)
    source = _Source(path, addresses, None)
    try:
        accounts = [account for value in json_values(data, path) for account in _read_member(value, source)]
    except RecursionError:
        raise Refusal(path, "it is no JSON of accounts: it is nested too deep", "save the answer of the tool as it is") from None
    addresses.finish()
    return accounts


def by_address(accounts: Iterable[Account]) -> dict[bytes, Account]:
    """Accounts by their addresses, in their order; refuses two of one address."""
    found: dict[bytes, Account] = {}
    for account in accounts:
        before = found.get(account.address)
        if before is not None:
            raise account.fault(f"it stands twice, in {before.source} too", "keep one of the two")
        found[account.address] = account
    return found


def read_accounts(paths: list[str]) -> dict[bytes, Account]:
    """The accounts of files and folders, by address, in the order in which they stand there."""
    files = (file for given in paths for file in json_files(given))
    return by_address(account for path in files for account in accounts_of_text(read_bytes(path), path))


def account_json(address: bytes, owner: bytes, data: bytes) -> str:
    """An account as `solana account --output json` prints it and as a test validator loads it."""
    account = {"lamports": rent_exempt(len(data)), "data": [base64_text(data), "base64"], "owner": base58_of(owner),
               "executable": False, "rentEpoch": RENT["epoch"], "space": len(data)}
    return json.dumps({"pubkey": base58_of(address), "account": account}) + "\n"


def account_files(snapshot: Snapshot, program: bytes) -> Iterator[tuple[str, str]]:
    """The file of each account of a snapshot, in the order of a dump: its name and its text."""
    entries = list(snapshot.entries())
    width = max(4, len(str(len(entries))))
    for number, entry in enumerate(entries, 1):
        owner = TOKEN_PROGRAM if entry.kind in TOKEN_KINDS else program
        name = f"{number:0{width}}_{entry.kind}_{base58_of(entry.address)}.json"
        yield name, account_json(entry.address, owner, entry.data)


def write_account_files(snapshot: Snapshot, program: bytes, folder: str) -> None:
    """Writes the file of each account into a folder that is new or empty."""
    try:
        os.makedirs(folder, exist_ok=True)
        if os.listdir(folder):
            raise Refusal(folder, "the folder is not empty", "name a folder that is new or empty")
        for name, text in account_files(snapshot, program):
            with open(os.path.join(folder, name), "x", encoding="ascii") as file:
                file.write(text)
    except OSError as fault:
        raise Refusal(folder, f"it cannot be written ({fault.strerror})", "name a folder that you may write to") from None
