"""Fields of account bytes by name: their values, their texts, and which of them differ."""

from __future__ import annotations

from typing import Iterator

from bridge.encoding import shown
from bridge.tables import LAYOUTS, Field

_FIELDS: dict[str, dict[str, Field]] = {name: {field.name: field for field in fields} for name, fields in LAYOUTS.items()}


def bytes_at(layout: str, name: str, data: bytes) -> bytes:
    """The bytes of a field."""
    field = _FIELDS[layout][name]
    return data[field.place : field.place + field.length]


def number_at(layout: str, name: str, data: bytes) -> int:
    """The number in a field."""
    return int.from_bytes(bytes_at(layout, name, data), "little")


def address_at(layout: str, name: str, data: bytes) -> bytes:
    """The address in a field."""
    return bytes_at(layout, name, data)


def size_of(layout: str) -> int:
    """The bytes of the fields of a layout."""
    last = LAYOUTS[layout][-1]
    return last.place + last.length * last.count


def value_text(form: str, data: bytes) -> str:
    """A field's value as it is told: a number in decimal, an address as a word, all else in hexadecimal digits."""
    if form == "number":
        return str(int.from_bytes(data, "little"))
    if form == "address":
        return shown(data)
    if form == "bits":
        return f"0x{int.from_bytes(data, 'little'):x}"
    return "0x" + data.hex()


def _values(field: Field, data: bytes, base: int) -> Iterator[tuple[str, bytes]]:
    """The values of a field with their names, numbered where there are several."""
    for number in range(field.count):
        place = base + field.place + number * field.length
        name = field.name if field.count == 1 else f"{field.name}[{number}]"
        yield name, data[place : place + field.length]


def field_differences(layout: str, first: bytes, second: bytes, base: int = 0) -> Iterator[tuple[str, str, str]]:
    """Each field of a layout that differs between two records at the same place: its name and both values."""
    for field in LAYOUTS[layout]:
        start, end = base + field.place, base + field.place + field.length * field.count
        if first[start:end] == second[start:end]:
            continue
        for (name, ours), (_, theirs) in zip(_values(field, first, base), _values(field, second, base)):
            if ours != theirs:
                yield name, value_text(field.form, ours), value_text(field.form, theirs)
