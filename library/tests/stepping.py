"""Steps of an exchange whose rows act in place, beside a replay of the dump and the rows.

stepping.py ROOT. Each stored script without a fault is cut into steps, and so are drawn ones: the text of each step's
report, what is read from it, and what the next step begins with are those of the replay, byte by byte. Rows that are
changed by a seed are taken or refused as the replay takes or refuses them. Prints 'N passed, M failed'.
"""

import random

from counting import end, root, same
import daisyhook
from daisyhook import exchange, flow, rows
from daisyhook.steps import StepReport
from acting import INSTRUCTIONS, drawn

SEEDS, CHANGED = 4, 800
SIGNS = 'abdo019,,- \t"\r\nx'


def replayed(before: daisyhook.Exchange, step: str) -> daisyhook.Exchange:
    """The step as a replay of the last dump and the rows."""
    quick, exchange.FEW_ROWS, exchange.DUMP_OF_A_ROW = (exchange.FEW_ROWS, exchange.DUMP_OF_A_ROW), 0, 10**18
    try:
        return before.step(step)
    finally:
        exchange.FEW_ROWS, exchange.DUMP_OF_A_ROW = quick


def outcome(step, *words) -> object:
    """The exchange, or what was raised."""
    try:
        return step(*words)
    except daisyhook.DexError as refusal:
        return refusal


def read(report: daisyhook.Report) -> list[object]:
    """All that is read from a report."""
    names = 'address', 'authority', 'coin_mint', 'coin_lot', 'coin_vault', 'pc_vault', 'events', 'bids', 'asks', 'depth', 'open_orders', 'journal'
    markets = [[getattr(market, name) for name in names] for market in report.markets.values()]
    return [report.rows, markets, report.wallets, report.swaps, report.accounts.mints, report.accounts.srm, report.accounts.msrm]


def try_step(name: str, before: daisyhook.Exchange, step: str, is_read: bool) -> daisyhook.Exchange:
    """A step both ways; the exchange behind it, or the one before where it was refused."""
    found, wanted = outcome(before.step, step), outcome(replayed, before, step)
    if isinstance(wanted, daisyhook.DexError) or isinstance(found, daisyhook.DexError):
        same(f'{name}: {step!r} is refused', repr(found), repr(wanted))
        return before
    if is_read:
        same(f'{name}: {step!r} read', read(found.report), read(wanted.report))
    same(f'{name}: {step!r}', found.report.text, wanted.report.text)
    same(f'{name}: behind {step!r}', (found.first_row, found._front, found.dump), (wanted.first_row, wanted._front, wanted.dump))
    return found


def parted(script: str) -> tuple[str, list[str]]:
    """The setup of a script, and its other rows."""
    lines = script.splitlines(keepends=True)
    first = next((at for at, line in enumerate(lines) if line.lstrip('"').startswith(INSTRUCTIONS)), len(lines))
    return ''.join(lines[:first]), lines[first:]


def stored() -> list[tuple[str, str]]:
    """The stored scripts, with swaps, with quotes and with rows at fault."""
    files = [*(root / 'examples').glob('*.csv'), *(root / 'tests/cases/rows').glob('*.csv'), root / 'tests/data/swaps.csv']
    files += [*(root / 'tests/cases/replay').glob('*.in'), *(root / 'tests/cases/scripts').glob('*.in'), *(root / 'tests/cases/swap').glob('*.in')]
    return [(str(file.relative_to(root)), file.read_text('latin-1')) for file in sorted(files) if file.stat().st_size < 300_000]


def try_script(name: str, script: str, sizes: random.Random) -> int:
    """A script in steps of a few rows; how many of them acted in place."""
    setup, lines = parted(script)
    here = outcome(daisyhook.Exchange, setup)
    if isinstance(here, daisyhook.DexError):
        return 0
    count = 0
    while lines:
        size = sizes.choice([1, 1, 2, 5])
        here = try_step(name, here, ''.join(lines[:size]), sizes.random() < 0.2)
        count += isinstance(here.report, StepReport)
        lines = lines[size:]
    return count


def changed(row: str, draws: random.Random) -> str:
    """A row with a sign, a field or a word put in, taken out or changed."""
    at, kind = draws.randrange(len(row)), draws.randrange(4)
    if kind == 0:
        return row[:at] + draws.choice(SIGNS) + row[at + 1:]
    if kind == 1:
        return row[:at] + row[at + 1:]
    if kind == 2:
        return row[:at] + draws.choice(SIGNS) + row[at:]
    parts = row.rstrip('\n').split(draws.choice([',', ' ']))
    parts[draws.randrange(len(parts))] = draws.choice(['0', '00', '256', '65536', str(2**63), str(2**64), '-', '', 'bid', 'm', 'zz', '0x' + '6d' + '00' * 31, 'é', 'AAA='])
    return draws.choice([',', ' ']).join(parts) + '\n'


def try_changed(draws: random.Random) -> None:
    """Rows that are changed, on a small market."""
    setup, lines = parted(drawn(3, 60))
    lines += ['swap,1,u0,m,c0,q0,AA0A,m,c1,q1,AA0A\n', 'program,openbook\n', 'clock,9223372036854775808\n', 'ix,0,m,u0,a0,-,-,-,-,AAUAAAA=\n',
              'do,0,m,u0,a0,-,-,-,-,cancels 1 2 3 4 5 6 7 8\n', 'do,0,m,u0,a0,-,-,-,-,cancel bid 18446744073709551616\n', 'mint,late,6\n', '\n']
    here = daisyhook.Exchange(setup + ''.join(lines[:20]))
    for line in lines:
        try_step('a row as it is', here, line, False)
    for _ in range(CHANGED):
        try_step('a changed row', here, changed(draws.choice(lines), draws), False)


def try_kept() -> None:
    """An exchange stays as it is when others go on from it, also by markets in place; and a program and a clock go on."""
    setup, lines = parted((root / 'examples/deep_book.csv').read_text())
    start = daisyhook.Exchange(setup)
    text, count = start.report.text, 0
    one, other = start.step(lines[0]), start.step(lines[0] + lines[1])
    same('an exchange that others went on from', (start.report.text, one.step(lines[1]).dump), (text, other.dump))
    crowd = flow.Flow(flow.Parameters(seed=5))
    here = daisyhook.Exchange('program,openbook\n' + crowd.setup(63, 64)).step('clock,9\n' + crowd.init())
    for _ in range(40):
        here = try_step('a flow', here, crowd.rows(here.report.markets['m'].depth, 0.2), True)
        count += isinstance(here.report, StepReport)
    same('steps of a flow that acted in place', count > 30, True)
    same('the front behind them', here._front, b'program,openbook\nclock,9\n')
    same('no rows', here.step('').report.text, replayed(here, '').report.text)


def main() -> None:
    """All of them."""
    sizes, count = random.Random(1), 0
    for name, script in stored():
        count += try_script(name, script, sizes)
    same('many steps acted in place', count > 500, True)
    for seed in range(SEEDS):
        try_script(f'drawn rows of seed {seed}', drawn(100 + seed, 150), sizes)
    made = daisyhook.make(9, 300).decode()
    try_script('make 9 300', made, sizes)
    try_changed(random.Random(2))
    try_kept()
    end()


if __name__ == '__main__':
    main()
