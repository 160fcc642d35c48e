"""The live session from Python, with the built program.

live.py ROOT DESK. Expected entries and accounts are those of stored reports. Prints 'N passed, M failed'.
"""

import os
import pickle
import signal
import sys
import tempfile
import time
from collections.abc import Callable
from pathlib import Path

from counting import end, root, same
import daisyhook
from daisyhook import Desk, DeskGone, ScriptRefused
from daisyhook.entries import entry_of

program = sys.argv[2]


def raised(kind: type[Exception], call: Callable[..., object], *words: object, **more: object) -> Exception | None:
    """What a call raises, where it is of this kind; else a failed check."""
    try:
        same(f'{kind.__name__} of {call} with {words!r:.80}', call(*words, **more), 'an exception')
    except kind as error:
        return error
    return None


def parts_of(script: str) -> tuple[str, list[str]]:
    """The set-up of a script, and the instruction and clock rows behind it."""
    rows = script.splitlines(keepends=True)
    first = next(at for at, row in enumerate(rows) if row.startswith(('do,', 'ix,', 'swap,')))
    return ''.join(rows[:first]), rows[first:]


def entries_by_row(report: bytes) -> dict[int, list[daisyhook.Entry]]:
    """The entries of each row of a report; of a swap both, in the order of the markets."""
    found: dict[int, list[daisyhook.Entry]] = {}
    for line in report.decode().splitlines():
        if line.startswith('entry '):
            found.setdefault(int(line.split()[2]), []).append(entry_of(line))
    return found


def try_script(script: Path, report: Path) -> None:
    """A stored script row by row: its entries, the numbers of its rows, its last accounts."""
    setup, rows = parts_of(script.read_text())
    wanted = entries_by_row(report.read_bytes())
    with Desk(setup, program, timeout=60) as desk:
        for row in rows:
            number = desk.number
            if row.startswith('clock,'):
                desk.clock(int(row.strip().split(',')[1]))
                continue
            answer = desk.do(row)
            if isinstance(answer, daisyhook.Swap):
                markets = row.split(',')[3], row.split(',')[7]
                same(f'{script.name}: markets of row {number}', tuple(leg.market for leg in answer.legs), markets)
                found = sorted((leg.entry for leg in answer.legs), key=repr)
            else:
                found = [answer]
            same(f'{script.name}: row {number}', found, sorted(wanted[number], key=repr))
            same(f'{script.name}: the next row', desk.number, number + 1)
        last = report.read_bytes()
        last = last[last.index(b'\ndump\n') + 1:-len(b'end\n')]
        same(f'{script.name}: dump', desk.dump(), last)
        same(f'{script.name}: last accounts', desk.close(), last)
        same(f'{script.name}: closed twice', desk.close(), last)
    raised(DeskGone, desk.do, rows[0])


def try_faults() -> None:
    """Faults change nothing, and the session goes on; what a set-up is refused for is raised."""
    setup, rows = parts_of((root / 'examples/two_traders.csv').read_text())
    number = setup.count('\n') + 1
    with Desk(setup, program, timeout=60) as desk:
        before = desk.dump()
        for row, kind, name, code in (('do,0', 3, 'FieldCount', None), ('what', 2, 'UnknownRow', None), ('mint,new,6', 9, 'SetupRefused', 1),
                                      ('program,serum', 9, 'SetupRefused', 7)):
            error = raised(ScriptRefused, desk.do, row)
            same(f'the fault of {row}', (error.row, error.kind, error.name, error.code), (number, kind, name, code))
        error = raised(ScriptRefused, desk.book, 'none', 5)
        same('a book of no market', (error.row, error.name), (number, 'UnknownLabel'))
        for row in ('', '\n', rows[0] + rows[1], 'do,0,"m"', 'clock,5', 'dump', 'book,m,5', 'do,0\rdo,1', '\ufeff', '\ufeff' + rows[0]):
            raised(ValueError, desk.do, row)
        raised(ValueError, desk.book, 'm,5\ndump', 5)
        raised(ValueError, desk.book, '"m"', 5)
        same('accounts after faults', (desk.dump(), desk.number), (before, number))
        answers = desk.do_all([rows[0], 'do,0', rows[1]])
        same('a fault among rows', [type(answer) for answer in answers], [daisyhook.Entry, ScriptRefused, daisyhook.Entry])
        same('an empty book', desk.book('m', 5), daisyhook.Depth((), ()))
    same('a bad set-up', repr(raised(ScriptRefused, Desk, setup + 'what\n', program)), repr(ScriptRefused(f'script refused row {number}: 2 UnknownRow')))
    raised(daisyhook.DumpRefused, Desk, 'dump\nmint,coin,AA==\nenddump\n', program)
    raised(ValueError, Desk, setup + 'open\n' + rows[0], program)
    same('a set-up without a last line feed', Desk(setup.rstrip('\n'), program).number, number)


def try_book() -> None:
    """The book: Ann asks 4 lots at 50, and then 3 are taken."""
    setup, rows = parts_of((root / 'examples/two_traders.csv').read_text())
    with Desk(setup, program, timeout=60) as desk:
        for row in rows[:3]:
            desk.do(row)
        same('an ask', desk.book('m', 5), daisyhook.Depth((), (daisyhook.Level(50, 4, None),)))
        desk.do(rows[3])
        same('what is left of it', desk.book('m', 5), daisyhook.Depth((), (daisyhook.Level(50, 1, None),)))
        same('no price', desk.book('m', 0), daisyhook.Depth((), ()))
        with Desk(desk.dump(), program, timeout=60) as other:
            same('a desk over a dump', other.book('m', 5), desk.book('m', 5))


def made(folder: str, text: str) -> str:
    """A program of the shell."""
    path = Path(folder) / f'program_{len(os.listdir(folder))}'
    path.write_text(f'#!/bin/sh\n{text}\n')
    path.chmod(0o755)
    return str(path)


def try_ends(folder: str) -> None:
    """Programs that are missing, end, are killed or hang: each is told by DeskGone, and by each call from then on."""
    setup, rows = parts_of((root / 'examples/two_traders.csv').read_text())
    same('no program', raised(DeskGone, Desk, setup, folder + '/none').status, None)
    same('a program that ends', raised(DeskGone, Desk, setup, made(folder, 'exit 3'), timeout=20).status, 3)
    same('a program that says what it lacks', raised(daisyhook.OutOfMemory, Desk, setup, made(folder, 'echo no memory; exit 7'), timeout=20).status, 7)
    big = 'mint,coin,6\n' * 200_000
    for what, text in (('hangs', 'exec sleep 60'), ('says much', 'exec yes'), ('reads and says nothing', 'exec sed d')):
        start = time.monotonic()
        same(f'a program that {what}', raised(DeskGone, Desk, big, made(folder, text), timeout=0.5).status, -signal.SIGKILL)
        same('the time that it took', time.monotonic() - start < 20, True)
    gone = raised(DeskGone, Desk(setup, made(folder, 'echo open 11; exec yes'), timeout=5).do, rows[0])
    same('an answer that is none', 'answered' in str(gone), True)
    for number in (signal.SIGKILL, signal.SIGSTOP):
        desk = Desk(setup, program, timeout=2)
        os.kill(desk._process.pid, number)
        error = raised(DeskGone, desk.do_all, rows[:1] * 20_000)
        same(f'a desk after signal {number}', (error.status, error.text), (-signal.SIGKILL, pickle.loads(pickle.dumps(error)).text))
        for call in (desk.dump, desk.close, lambda: desk.do(rows[0]), lambda: desk.book('m', 1), lambda: desk.clock(1)):
            same('each later call', str(raised(DeskGone, call)), str(error))
    with Desk(setup, program, timeout=60) as desk:
        row = 'do,0,m,ann,amy,ann_coin,-,-,-,cancelc 0'
        answers = desk.do_all([row] * 50_000)
        same('rows that fill both pipes', (len(answers), answers[-1].row, desk.number), (50_000, desk.number - 1, setup.count('\n') + 50_001))
    try:
        with Desk(setup, program, timeout=60):
            raise KeyError('its own')
    except KeyError:
        same('an exception of the caller goes through', True, True)


for script in sorted(root.glob('examples/*.csv')):
    try_script(script, script.with_suffix('.report'))
try_script(root / 'tests/data/swaps.csv', root / 'tests/data/swaps.report')
try_faults()
try_book()
with tempfile.TemporaryDirectory() as room:
    try_ends(room)
end()
