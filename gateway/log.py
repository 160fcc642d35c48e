"""The log: each accepted row, on the disk before its answer goes out.

It is a folder of parts 000001.csv, 000002.csv, .. Each is a script that `dex replay` takes. The first begins with the set-up; each other one with
the dump that the part before leaves, and its program and clock. What follows are the accepted rows, in their order.
"""

from __future__ import annotations

import fcntl
import os
import re

DUMP, END = b'dump\n', b'\nenddump\n'
ACTS = re.compile(rb'^"?(?:do|ix|swap)"?,', re.MULTILINE)
PART = re.compile(r'[0-9]{6,}\.csv')
# A part has fewer rows than 100,000, and fewer bytes than a script may have.
MOST_ROWS, MOST_BYTES, LEAST_BYTES = 90_000, 60_000_000, 1_000_000


def is_dump(text: bytes) -> bool:
    """Whether a text is a dump, with no row behind it that acts."""
    return text.startswith(DUMP) and ACTS.search(text, text.find(END) + len(END)) is None


class BadLog(Exception):
    """The log cannot be used; the text says why."""


def sync_folder(folder: str) -> None:
    """Puts the names of a folder's files on the disk."""
    place = os.open(folder, os.O_RDONLY)
    try:
        os.fsync(place)
    finally:
        os.close(place)


def write_all(place: int, data: bytes) -> None:
    """Writes all bytes to a file."""
    left = memoryview(data)
    while left:
        left = left[os.write(place, left):]


class Log:
    """The log of a folder, which no other gateway may write at the same time."""

    def __init__(self, folder: str) -> None:
        if not os.path.isdir(folder):
            os.makedirs(folder, mode=0o700)
            sync_folder(os.path.dirname(os.path.abspath(folder)))
        self.folder = folder
        self._lock = os.open(os.path.join(folder, 'lock'), os.O_RDWR | os.O_CREAT, 0o600)
        try:
            fcntl.flock(self._lock, fcntl.LOCK_EX | fcntl.LOCK_NB)
        except OSError as error:
            raise BadLog(f'{folder}: another gateway writes to it') from error
        self._place = -1
        self.head = self.size = 0
        self.is_fresh = False
        """Whether the last part was begun, or found, as a dump alone: any other may have as many rows already as a script."""
        self.dropped = b''
        """The last line, where it was torn and is dropped."""

    def parts(self) -> list[str]:
        """The names of the parts, the first one first."""
        return sorted((name for name in os.listdir(self.folder) if PART.fullmatch(name)), key=lambda name: (len(name), name))

    def last(self) -> bytes | None:
        """The last part, to go on from; None where there is none yet. A line that was torn is taken off its end. All of it is on the disk
        then: a gateway that was killed may have left rows for which it had not waited yet."""
        names = self.parts()
        if not names:
            return None
        self._place = os.open(os.path.join(self.folder, names[-1]), os.O_RDWR | os.O_APPEND)
        with open(self._place, 'rb', closefd=False) as file:
            text = file.read()
        whole = text.rfind(b'\n') + 1
        if whole < len(text):
            self.dropped = text[whole:]
            os.ftruncate(self._place, whole)
        os.fsync(self._place)
        self.head = self.size = whole
        self.is_fresh = is_dump(text[:whole])
        return text[:whole]

    def begin(self, text: bytes) -> None:
        """Begins a part with this text. It has its name only when it is whole on the disk."""
        names = self.parts()
        number = int(names[-1][:-4]) + 1 if names else 1
        path = os.path.join(self.folder, f'{number:06}.csv')
        place = os.open(path + '.new', os.O_WRONLY | os.O_CREAT | os.O_TRUNC | os.O_APPEND, 0o600)
        write_all(place, text)
        os.fsync(place)
        os.rename(path + '.new', path)
        sync_folder(self.folder)
        if self._place >= 0:
            os.close(self._place)
        self._place, self.head, self.size, self.is_fresh = place, len(text), len(text), is_dump(text)

    def append(self, rows: bytes) -> None:
        """Puts rows at the end; when the call returns they are on the disk."""
        write_all(self._place, rows)
        os.fdatasync(self._place)
        self.size += len(rows)

    def is_full(self, rows: int, most: int) -> bool:
        """Whether a part of so many rows is to be followed by another."""
        is_long = rows >= most and (self.size > self.head or not self.is_fresh)
        return is_long or self.size >= max(MOST_BYTES, self.head + LEAST_BYTES)
