"""Reading the files of an input: bytes, JSON, and folders of JSON files."""

from __future__ import annotations

import collections
import json
import os
import sys
from typing import Any, Iterator, NoReturn

from bridge.refusals import Refusal

STANDARD_INPUT = "-"
_MOST_DIGITS = 40
# Parts are lists, objects, and what a comma ends. A text that has more than this many has a part in this many bytes at most.
_MANY_PARTS, _SHORTEST_PART = 1_000_000, 4


def _standard_input() -> bytes:
    """The bytes of standard input."""
    if sys.stdin is None:
        raise Refusal("standard input", "it is closed", "give the input there")
    return sys.stdin.buffer.read()


def read_bytes(path: str) -> bytes:
    """The bytes of a file, or of standard input where the path is `-`."""
    try:
        if path == STANDARD_INPUT:
            return _standard_input()
        with open(path, "rb") as file:
            return file.read()
    except OSError as fault:
        raise Refusal(name_of(path), f"it cannot be read ({fault.strerror})", "name a file that is there and that you may read") from None


def is_json_text(data: bytes) -> bool:
    """Whether bytes begin as JSON of accounts or transactions does."""
    return data.removeprefix(b"\xef\xbb\xbf").lstrip()[:1] in (b"{", b"[")


def name_of(path: str) -> str:
    """A path as messages tell it."""
    return "standard input" if path == STANDARD_INPUT else path


def _members(pairs: list[tuple[str, Any]]) -> dict[str, Any]:
    """An object of its members, of which none may stand twice."""
    members = dict(pairs)
    if len(members) != len(pairs):
        twice, _ = collections.Counter(name for name, _ in pairs).most_common(1)[0]
        raise ValueError(f"an object has the key {twice[:40]!r} twice")
    return members


def _number(digits: str) -> int:
    """A whole number of JSON."""
    if len(digits) > _MOST_DIGITS:
        raise ValueError(f"a number has {len(digits)} digits")
    return int(digits)


def _no_number(word: str) -> NoReturn:
    """Refuses a word that JSON has no number for."""
    raise ValueError(f"{word} is no number")


_DECODER = json.JSONDecoder(object_pairs_hook=_members, parse_int=_number, parse_constant=_no_number)


def _check_parts(data: bytes, source: str) -> None:
    """Refuses JSON with more short parts than accounts and transactions ever have: it would take long to read."""
    parts = sum(map(data.count, (b"[", b"{", b",")))
    if parts > max(_MANY_PARTS, len(data) // _SHORTEST_PART):
        what = f"it has {parts} lists, objects and commas in {len(data)} bytes, more than accounts or transactions have"
        raise Refusal(source, what, "save the answer of the tool as it is")


def json_values(data: bytes, source: str) -> Iterator[Any]:
    """The value that JSON text stands for; of a list its members."""
    if not data.strip():
        raise Refusal(source, "it is empty and no JSON", "save the whole answer of the tool in it")
    _check_parts(data, source)
    try:
        value = _DECODER.decode(data.decode("utf-8-sig"))
    except UnicodeDecodeError:
        raise Refusal(source, "it is no JSON: its bytes are no UTF-8", "save the answer of the tool as UTF-8 text") from None
    except RecursionError:
        raise Refusal(source, "it is no JSON of accounts: it is nested too deep", "save the answer of the tool as it is") from None
    except ValueError as fault:
        raise Refusal(source, f"it is no JSON ({fault})", "save the whole answer of the tool in it") from None
    yield from value if isinstance(value, list) else [value]


def json_files(path: str) -> list[str]:
    """A file by itself, or the JSON files of a folder by their names."""
    if not os.path.isdir(path):
        return [path]
    try:
        names = sorted(name for name in os.listdir(path) if name.endswith(".json"))
    except OSError as fault:
        raise Refusal(path, f"the folder cannot be read ({fault.strerror})", "name a folder that you may read") from None
    if not names:
        raise Refusal(path, "the folder has no file that ends with .json", "name a folder with account JSON")
    return [plain_file(os.path.join(path, name)) for name in names]


def plain_file(path: str) -> str:
    """The path of a file that was not named by itself: a pipe there would be waited for without end."""
    if os.path.exists(path) and not os.path.isfile(path):
        raise Refusal(path, "it is no plain file", "leave pipes, sockets, devices and folders out")
    return path
