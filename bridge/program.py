"""Running the exchange's program: what it says of a script, and where it is."""

from __future__ import annotations

import os
import subprocess
import sys
from typing import NamedTuple, Optional

from bridge.dump_text import dump_rows, read_dump
from bridge.refusals import Refusal
from bridge.snapshot import Snapshot
from bridge.tables import REASONS

_ROOT = os.path.dirname(os.path.dirname(os.path.abspath(__file__)))
# The proved program, and the one that runs without a proof.
_PLACES = (os.path.join("crates", "dex_program", "out", "dex_program"), "now")
_VALUES = {"order": 6, "take": 3, "cancelled": 1, "consumed": 1, "settled": 3, "swept": 1, "done": 0}


class Reply(NamedTuple):
    """What a row was answered: `ok` or `refused`, the kind of the answer or the reason's name, and the values."""

    is_ok: bool
    name: str
    values: tuple[str, ...]

    def text(self) -> str:
        """The reply as a report has it."""
        words = ["ok", self.name] if self.is_ok else ["refused", str(REASONS[self.name].number), self.name]
        return " ".join([*words, *self.values])


# The commands within the widest limits: the proved program, and else the library's.
_BUILT_WIDE = os.path.join(_ROOT, "crates", "dex_wide", "out", "dex_wide")
_WIDE = ["env", f"PYTHONPATH={os.path.join(_ROOT, 'library')}", sys.executable, "-m", "daisyhook", "--wide"]


def find_program(given: Optional[str], is_wide: bool) -> list[str]:
    """The program that a word names, or the one of this folder: the proved one where it is built, else one beside `ledger`; or the wide
    one, for markets beyond the program's limits."""
    if is_wide and given is None:
        return [_BUILT_WIDE] if os.access(_BUILT_WIDE, os.X_OK) else _WIDE
    places = [given] if given is not None else [os.path.join(_ROOT, place) for place in _PLACES]
    for place in places:
        if os.path.isfile(place) and os.access(place, os.X_OK):
            return [os.path.abspath(place)]
    what = "it is no program that can be run" if given else "it is not built"
    raise Refusal(given or "the exchange's program", what, "run ./dex once, which proves and builds it, or name one with --dex PATH")


def _reply_of(line: str) -> Reply:
    """The reply of a line `entry ..`."""
    words = line.split(" ")
    if words[3] == "ok":
        return Reply(True, words[4], tuple(words[5 : 5 + _VALUES[words[4]]]))
    return Reply(False, words[5], tuple(words[6 : 6 + len(REASONS[words[5]].values)]))


def _run(program: list[str], text: str) -> bytes:
    """The report of a script."""
    try:
        done = subprocess.run([*program, "replay"], input=text.encode("ascii"), capture_output=True, check=False)
    except OSError as fault:
        raise Refusal(program[0], f"it cannot be run ({fault.strerror})", "name another with --dex PATH") from None
    if done.returncode == 0:
        return done.stdout
    told = done.stdout.decode("ascii", "replace").strip().split("\n")[0] or f"status {done.returncode}"
    raise Refusal("the dump", f"the exchange's program refuses it: {told}", "./dex audit tells all; docs/REFUSED.md tells what to do")


def replay_row(program: list[str], snapshot: Snapshot, front: list[str], row: str) -> tuple[Reply, Snapshot]:
    """What one row is answered on some accounts, and the accounts behind it."""
    rows = [*dump_rows(snapshot), *front, row]
    report = _run(program, "\n".join(rows) + "\n")
    line = next((line for line in report[: report.index(b"\ndump\n")].decode("ascii").split("\n") if line.startswith("entry ")), None)
    if line is None:
        raise Refusal(program[0], "its report has no entry of the row", "name the exchange's own program with --dex PATH")
    return _reply_of(line), read_dump(report, "the report")
