"""Changes of texts and of JSON in one place, drawn by a generator with a seed."""

from __future__ import annotations

import base64
import json
import random
from typing import Any, Callable

WRONG: tuple[Any, ...] = (None, 5, -1, 0, "x", "", [], {}, [None], [[]], True, False, 1.5, 10**30, "1" * 32, "AAAA", "\ud800", "a\nb", "\0")
SIGNS = "\"\",,\n\r\0 aA0-_=+/x\x0b\x7f"


def quoted_field(draw: random.Random, text: str) -> str:
    """A text of rows of which one field, or all, stand in quotes."""
    rows = [row.split(",") for row in text.split("\n")]
    row = draw.randrange(len(rows))
    chosen = range(len(rows)) if draw.random() < 0.2 else [row]
    for number in chosen:
        if rows[number] != [""]:
            place = draw.randrange(len(rows[number]))
            rows[number][place] = draw.choice(('"%s"', '"%s"', '"%s', '%s"', '" %s"', '""%s', '"%s""')) % rows[number][place]
    return "\n".join(map(",".join, rows))


def other_lines(draw: random.Random, text: str) -> str:
    """A text of which a line is left out, stands twice, has moved, is empty, or is another one."""
    lines = text.split("\n")
    at, to = draw.randrange(len(lines)), draw.randrange(len(lines))
    line = lines[at]
    way = draw.randrange(5)
    if way != 1:
        del lines[at]
    if way in (1, 2):
        lines.insert(to, line)
    if way in (3, 4):
        lines.insert(at, "" if way == 3 else draw.choice(("dump", "enddump", "end", "report 3", "srm,coin", "clock,5", "mint,coin,AAAA", "orders,m,zoe,AAAA")))
    return "\n".join(lines)


def other_field(draw: random.Random, text: str) -> str:
    """A text of rows of which a field is another word."""
    rows = [row.split(",") for row in text.split("\n")]
    row = draw.choice(rows)
    place = draw.randrange(len(row))
    row[place] = draw.choice((row[place][:-1], row[place] + "A", "", "coin", "m", "ann_coin", "0x" + "0" * 64, "0x6d" + "0" * 62, "A" * 44, "AAA=", "1" * 44))
    return "\n".join(map(",".join, rows))


def other_byte(draw: random.Random, text: str) -> str:
    """A text of rows in which an account has another byte, or one byte less or more."""
    rows = [row.split(",") for row in text.split("\n")]
    places = [(row, place) for row in rows for place, field in enumerate(row) if len(field) > 70]
    row, place = draw.choice(places)
    row[place] = base64.b64encode(other_bytes(draw, base64.b64decode(row[place]))).decode()
    return "\n".join(map(",".join, rows))


def other_bytes(draw: random.Random, data: bytes) -> bytes:
    """Bytes of which one is another, is left out or stands twice."""
    place = draw.randrange(len(data))
    middle = draw.choice((bytes([data[place] ^ 1 << draw.randrange(8)]),) * 6 + (b"", data[place : place + 1] * 2))
    return data[:place] + middle + data[place + 1 :]


def other_sign(draw: random.Random, text: str) -> str:
    """A text of which a sign is another one, is left out, or stands more."""
    place = draw.randrange(len(text) + 1)
    return text[:place] + draw.choice(SIGNS) * draw.randrange(2) + text[place + draw.randrange(2) :]


def cut(draw: random.Random, text: str) -> str:
    """A text that ends before its end."""
    return text[: draw.randrange(len(text) - 1)]


def more_behind(draw: random.Random, text: str) -> str:
    """A text with more behind its end."""
    return text + draw.choice((text, "dump\nenddump\n", "end\n", "clock,5\n", "ix,0,m,ann,-,-,-,-,-,AA==\n", "x", "report 0\n", "enddump\n", "end"))


def other_ends(draw: random.Random, text: str) -> str:
    """A text with other ends of lines, or a mark in front."""
    return draw.choice((text.replace("\n", "\r\n"), text.replace("\n", "\r"), text.replace("\n", "\n\n"), "\ufeff" + text, "\n" + text))


OF_DUMPS: tuple[Callable[[random.Random, str], str], ...] = (
    quoted_field, quoted_field, other_lines, other_lines, other_field, other_field, other_byte, other_byte, other_byte, other_sign, other_sign, cut,
    more_behind, other_ends)


def every_path(value: Any) -> list[list[Any]]:
    """The way to each member of a JSON value."""
    names = list(value) if isinstance(value, dict) else range(len(value)) if isinstance(value, list) else []
    return [path for name in names for path in [[name], *([name, *rest] for rest in every_path(value[name]))]]


def other_member(draw: random.Random, value: Any) -> None:
    """Makes a member of a JSON value another one, or takes it out, or lets a list have it twice or turned round."""
    *front, name = draw.choice(every_path(value))
    part = value
    for step in front:
        part = part[step]
    way = draw.randrange(6)
    if way == 0:
        del part[name]
    elif way == 1 and isinstance(part, list):
        part.insert(draw.randrange(len(part) + 1), part[name])
    elif way == 2 and isinstance(part[name], list):
        part[name].reverse()
    elif way == 3 and type(part[name]) is int:
        part[name] += draw.choice((-1, 1, 2**32, -(2**63)))
    elif way == 4 and isinstance(part[name], str) and part[name]:
        place = draw.randrange(len(part[name]))
        part[name] = part[name][:place] + draw.choice("1zZ0l\n ") * draw.randrange(3) + part[name][place + 1 :]
    else:
        part[name] = draw.choice(WRONG)


def key_twice(draw: random.Random, text: str) -> str:
    """JSON text in which an object has a key twice."""
    places = [place for place in range(len(text)) if text.startswith('": ', place)]
    end = draw.choice(places)
    start = text.rindex('"', 0, end)
    return text[:start] + text[start : end + 3] + draw.choice(("null", "5", '"x"', "{}")) + ", " + text[start:]


def copied(value: Any) -> Any:
    """A copy of a JSON value."""
    return json.loads(json.dumps(value))
