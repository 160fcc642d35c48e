"""What is wrong with an input, in one line: where, what, and what to do."""

from __future__ import annotations


def one_line(text: str, most: int = 400) -> str:
    """The text with its control characters written as escapes, and cut where it is very long."""
    plain = "".join(sign if sign.isprintable() else sign.encode("unicode_escape").decode("ascii") for sign in text)
    return plain if len(plain) <= most else plain[:most] + ".."


class Refusal(Exception):
    """An input that is not taken: where it stands, what is wrong with it, and what to do."""

    def __init__(self, where: str, what: str, remedy: str) -> None:
        super().__init__(f"{one_line(where)}: {one_line(what)}; {one_line(remedy)}")


class Words(Exception):
    """Words after the command that say nothing that can be done."""
