"""What the tests of the ledger bridge share: the repository's dumps, the command, and accounts in every form."""

from __future__ import annotations

import base64
import contextlib
import io
import json
import os
import subprocess
import sys
import tempfile
import unittest
from dataclasses import dataclass
from typing import IO, Any, Iterator, Optional

ROOT = os.path.dirname(os.path.dirname(os.path.dirname(os.path.dirname(os.path.abspath(__file__)))))
PROGRAM = os.environ.get("DEX_PROGRAM") or os.path.join(ROOT, "dex")
sys.path.insert(0, ROOT)
sys.dont_write_bytecode = True

from bridge.accounts import TOKEN_KINDS  # noqa: E402
from bridge.command import main  # noqa: E402
from bridge.dump_text import dump_rows, read_dump  # noqa: E402
from bridge.encoding import base58_text, base64_text  # noqa: E402
from bridge.snapshot import Entry, Snapshot, is_blank  # noqa: E402
from bridge.tables import PROGRAMS, TOKEN_PROGRAM  # noqa: E402

SERUM, OPENBOOK = PROGRAMS["serum"], PROGRAMS["openbook"]


@dataclass(frozen=True)
class Ended:
    """How a run of the command ended."""

    status: int
    out: str
    err: str


def ledger(*words: str, given: bytes = b"") -> Ended:
    """Runs the command in this process."""
    out, err, before = io.StringIO(), io.StringIO(), sys.stdin
    sys.stdin = io.TextIOWrapper(io.BytesIO(given))
    try:
        with contextlib.redirect_stdout(out), contextlib.redirect_stderr(err):
            status = main(words)
    finally:
        sys.stdin = before
    return Ended(status, out.getvalue(), err.getvalue())


def ledger_apart(*words: str, given: bytes = b"", out: Optional[IO[bytes]] = None) -> Ended:
    """Runs the command as a process of its own."""
    done = subprocess.run([os.path.join(ROOT, "ledger"), *words], input=given, stdout=out or subprocess.PIPE, stderr=subprocess.PIPE, check=False)
    return Ended(done.returncode, (done.stdout or b"").decode(), done.stderr.decode())


def dex(word: str, text: str) -> str:
    """What the exchange's program writes for a text."""
    return subprocess.run([PROGRAM, word], input=text.encode(), capture_output=True, check=False).stdout.decode()


def text_of(snapshot: Snapshot) -> str:
    """The dump of a snapshot."""
    return "".join(row + "\n" for row in dump_rows(snapshot))


def _stored() -> Iterator[str]:
    """The files of the repository that may hold a dump."""
    for folder, _, names in sorted(os.walk(os.path.join(ROOT, "examples"))) + sorted(os.walk(os.path.join(ROOT, "tests", "cases"))):
        for name in sorted(names):
            if name.endswith((".in", ".out", ".report", ".csv")):
                yield os.path.join(folder, name)


def stored_dumps() -> Iterator[tuple[str, str]]:
    """Each dump of the examples and the stored cases that ends with `enddump`: its file and its text."""
    for path in _stored():
        with open(path, encoding="latin-1", newline="") as file:
            text = file.read()
        start, end = ("\n" + text).find("\ndump\n"), text.find("\nenddump")
        if 0 <= start < end:
            yield path, text[start:end] + "\nenddump\n"


def example() -> Snapshot:
    """A dump with two traders, resting orders on both sides and pending events."""
    with open(os.path.join(ROOT, "examples", "deep_book.report"), "rb") as file:
        return read_dump(file.read(), "deep_book")


def account(entry: Entry, program: bytes = SERUM, encoding: str = "base64") -> dict[str, Any]:
    """An account as a node tells it, in an encoding; `plain` is base58 as a text alone."""
    texts = {"base64": base64_text, "base58": base58_text, "plain": base58_text}
    text = texts[encoding](entry.data)
    owner = TOKEN_PROGRAM if entry.kind in TOKEN_KINDS else program
    return {"lamports": 1, "data": text if encoding == "plain" else [text, encoding], "owner": base58_text(owner), "executable": False,
            "rentEpoch": 0}


def named(entry: Entry, program: bytes = SERUM, encoding: str = "base64") -> dict[str, Any]:
    """An account with its address."""
    return {"pubkey": base58_text(entry.address), "account": account(entry, program, encoding)}


def listed_accounts(snapshot: Snapshot) -> list[Any]:
    """All accounts of a snapshot with their addresses."""
    return [named(entry) for entry in snapshot.entries()]


def answer(value: Any) -> dict[str, Any]:
    """A node's answer with its context."""
    return {"jsonrpc": "2.0", "result": {"context": {"slot": 1, "apiVersion": "2.0.1"}, "value": value}, "id": 1}


def words_for(snapshot: Snapshot) -> list[str]:
    """The words of `dump` for a snapshot."""
    words = []
    for market in snapshot.markets:
        words += ["--market", base58_text(market.address), "--authority", base58_text(market.authority)]
        for held in market.orders:
            words += ["--blank", base58_text(market.address), base58_text(held.address)] if is_blank(held.data) else []
    for name, mint in (("--srm", snapshot.srm), ("--msrm", snapshot.msrm)):
        words += [name, base58_text(mint)] if mint is not None else []
    return words


def every_path(value: Any) -> list[list[Any]]:
    """The way to each member of a JSON value."""
    names = list(value) if isinstance(value, dict) else range(len(value)) if isinstance(value, list) else []
    return [path for name in names for path in [[name], *([name, *rest] for rest in every_path(value[name]))]]


def hostile(value: Any) -> Iterator[Any]:
    """Values of which one member is of another form."""
    wrongs: tuple[Any, ...] = (None, 5, -1, "x", [], {}, [None], True, 1.5, 10**30, "1" * 32, "AAAA")
    for path in every_path(value):
        for wrong in wrongs:
            other = json.loads(json.dumps(value))
            part = other
            for name in path[:-1]:
                part = part[name]
            part[path[-1]] = wrong
            yield other


def changed(data: bytes, place: int) -> bytes:
    """Bytes of which one is another."""
    return data[:place] + bytes([data[place] ^ 1]) + data[place + 1 :]


class Folder(unittest.TestCase):
    """A test with a folder of its own."""

    def setUp(self) -> None:
        self._folder = tempfile.TemporaryDirectory()
        self.addCleanup(self._folder.cleanup)
        self.folder = self._folder.name

    def path(self, name: str) -> str:
        """A path in the folder."""
        return os.path.join(self.folder, name)

    def save(self, name: str, value: Any) -> str:
        """Saves JSON, text or bytes, and answers the path."""
        data = value if isinstance(value, bytes) else (value if isinstance(value, str) else json.dumps(value)).encode()
        with open(self.path(name), "wb") as file:
            file.write(data)
        return self.path(name)

    def assert_refused(self, ended: Ended, *words: str) -> None:
        """Checks that a run was refused in one line that has these words, and wrote nothing to standard output."""
        self.assertEqual((ended.status, ended.out, ended.err.count("\n")), (2, "", 1), ended.err)
        for word in words:
            self.assertIn(word, ended.err)


def zstd_like(data: bytes) -> list[str]:
    """Data in an encoding that is not read."""
    return [base64.b64encode(b"\x28\xb5\x2f\xfd" + data[:8]).decode(), "base64+zstd"]


