"""The tables of `tables.json`, typed: programs, layouts, instructions and the places of their accounts."""

from __future__ import annotations

import json
import os
from dataclasses import dataclass
from typing import Any, Optional

from bridge.encoding import address_of


@dataclass(frozen=True)
class Field:
    """A field of a layout: `count` values of `length` bytes from `place` on."""

    place: int
    name: str
    length: int
    form: str
    count: int


@dataclass(frozen=True)
class Size:
    """The lengths that an account of a kind may have; no `most` where it ends with a ring or nodes."""

    layout: str
    least: int
    most: Optional[int]


@dataclass(frozen=True)
class Instruction:
    """An instruction's name and, where a script has it, which account stands at which place."""

    tag: int
    name: str
    places: Optional[tuple[str, ...]]
    optional: Optional[str]
    named_in_front: bool


@dataclass(frozen=True)
class Reason:
    """A reason for a refusal: its number, the public program's error where it has one of its own, and its values and words."""

    number: int
    error: Optional[int]
    values: tuple[str, ...]
    words: str


def _loaded() -> Any:
    """The file of tables."""
    with open(os.path.join(os.path.dirname(os.path.abspath(__file__)), "tables.json"), encoding="utf-8") as file:
        return json.load(file)


def _field(row: list[Any]) -> Field:
    """A field from its row."""
    place, name, length, form = row[:4]
    return Field(place, name, length, form, row[4] if len(row) > 4 else 1)


def _instruction(row: dict[str, Any]) -> Instruction:
    """An instruction from its row."""
    places = tuple(row["places"]) if "places" in row else None
    return Instruction(row["tag"], row["name"], places, row.get("optional"), row.get("named_in_front", False))


_TABLES = _loaded()

PROGRAMS: dict[str, bytes] = {name: address_of(word) for name, word in _TABLES["programs"].items()}
TOKEN_PROGRAM: bytes = address_of(_TABLES["token_program"])
RENT: dict[str, int] = _TABLES["rent"]
MOST_NAMED: int = _TABLES["row"]["most_named_accounts"]
MOST_DATA: int = _TABLES["row"]["most_data"]
INITIALIZED: int = _TABLES["flags"]["initialized"]
KIND_FLAGS: dict[str, int] = _TABLES["flags"]["kinds"]
CLOSED: int = _TABLES["flags"]["closed"]
SIZES: dict[str, Size] = {kind: Size(row["layout"], row["least"], row["most"]) for kind, row in _TABLES["accounts"].items()}
LAYOUTS: dict[str, tuple[Field, ...]] = {name: tuple(map(_field, rows)) for name, rows in _TABLES["layouts"].items()}
INSTRUCTIONS: dict[int, Instruction] = {row["tag"]: _instruction(row) for row in _TABLES["instructions"]}


NATIVE_MINT: bytes = address_of(_TABLES["native_mint"])
# Programs that touch no account of a market, and the names of others that often stand beside its instructions.
IDLE_PROGRAMS: dict[bytes, str] = {address_of(word): name for name, word in _TABLES["idle_programs"].items()}
OTHER_PROGRAMS: dict[bytes, str] = {address_of(word): name for name, word in _TABLES["other_programs"].items()}
REASONS: dict[str, Reason] = {name: Reason(row["number"], row.get("error"), tuple(row["values"]), row["words"])
                              for name, row in _TABLES["errors"].items()}
UNKNOWN_ERROR: int = _TABLES["unknown_error"]


def rent_exempt(length: int) -> int:
    """The lamports that keep an account of so many bytes free of rent."""
    return (RENT["account_bytes"] + length) * RENT["lamports_of_a_byte_year"] * RENT["years"]
