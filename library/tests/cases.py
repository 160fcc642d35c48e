"""Stored cases through the Python module, from several threads at once, and what it reads from reports.

cases.py ROOT CASE.. compares each case's text and refusal with what is stored, and the parsed reports of the examples, and of one with
swaps, with the numbers in their text. Prints 'N passed, M failed'.
"""

import os
import pickle
import subprocess
import sys
from collections.abc import Callable
from concurrent.futures import ThreadPoolExecutor
from pathlib import Path

from counting import end, root, same
import daisyhook


def called(words: list[str], script: bytes) -> tuple[int, bytes]:
    """What a command gives: its status and its text."""
    numbers = [int(word) for word in words[1:]]
    try:
        match words[0]:
            case 'replay': return 0, daisyhook.replay(script).text
            case 'dump': return 0, daisyhook.dump(script)
            case 'worth': return 0, daisyhook.worth(script).text
            case 'migrate': return 0, daisyhook.migrate(script, *numbers)
            case 'make': return 0, daisyhook.make(*numbers)
            case 'bulk': return 0, daisyhook.bulk(*numbers).text
            case 'audit': return audited(script)
    except daisyhook.DexError as refusal:
        again = pickle.loads(pickle.dumps(refusal))
        assert repr(again) == repr(refusal) and again.__dict__ == refusal.__dict__
        return refusal.status, refusal.text.encode()
    raise ValueError(words)


def audited(dump: bytes) -> tuple[int, bytes]:
    """What an audit gives, put into the program's words."""
    findings = daisyhook.audit(dump)
    if not findings:
        accounts = daisyhook.accounts(dump)
        return 0, f'audit ok {len(accounts.markets)} {len(accounts.wallets)}\n'.encode()
    lines = [f'finding {one.kind} {one.account} {one.place} {one.found} {one.wanted}' for one in findings]
    return 3, '\n'.join([*lines, f'audit failed {len(findings)}', '']).encode()


def try_case(name: str) -> tuple[str, object, object]:
    """A case, with what was found and what was wanted."""
    words = Path(name + '.words').read_text().split()
    source = Path(name + '.in')
    found = called(words, source.read_bytes() if source.exists() else b'')
    return name, found, (int(Path(name + '.status').read_text()), Path(name + '.out').read_bytes())


def words_of(entry: daisyhook.Entry) -> list[str]:
    """The words of an entry, from its parsed form."""
    names = {daisyhook.Ordered: 'order', daisyhook.Took: 'take', daisyhook.Cancelled: 'cancelled', daisyhook.Consumed: 'consumed',
             daisyhook.Settled: 'settled', daisyhook.Swept: 'swept', daisyhook.Done: 'done'}
    reply = entry.reply
    if isinstance(reply, daisyhook.Refused):
        told = ['refused', reply.number, reply.name, *reply.values.values()]
    else:
        told = ['ok', names[type(reply)], *(getattr(reply, field) for field in reply.__dataclass_fields__)]
    moves = [word for move in entry.moves for word in (move.wallet, move.kind, move.amount, move.before)]
    return [str(word) for word in ['entry', entry.lane, entry.row, *told, *moves]]


def try_report(text: bytes) -> None:
    """A report, put together again from what was read from it."""
    report = daisyhook.Report(text)
    lines = [f'report {report.rows}']
    for market in report.markets.values():
        lines += [f'market {market.address} {len(market.journal)}', *(' '.join(words_of(entry)) for entry in market.journal)]
    for wallet in report.wallets.values():
        lines.append(f'wallet {wallet.address} {len(wallet.journal)}')
        lines += [f'move {one.market} {one.lane} {one.row} {one.kind} {one.amount} {one.before}' for one in wallet.journal]
    same('a report read and written', '\n'.join([*lines, '']).encode() + report.dump + b'end\n', text)
    for market in report.markets.values():
        same('orders stand in slots', {order.id for order in (*market.bids, *market.asks)} - slots_of(market), set())
        for side in (market.depth.bids, market.depth.asks):
            same('no level twice', len({level.price for level in side}), len(side))
        same('lots by levels', [sum(one.lots for one in side) for side in (market.depth.bids, market.depth.asks)],
             [sum(one.lots for one in side) for side in (market.bids, market.asks)])


def slots_of(market: daisyhook.DumpedMarket) -> set[int]:
    """The ids in the slots of a market's accounts."""
    return {order for account in market.open_orders.values() for order in account.slots.values()}


def try_steps(script: str) -> None:
    """Rows one by one leave what they leave together, and are answered alike."""
    rows = script.splitlines(keepends=True)
    first = next(at for at, row in enumerate(rows) if row.startswith(('do,', 'ix,', 'swap,')))
    here = daisyhook.Exchange(''.join(rows[:first]))
    replies: dict[str, list[daisyhook.Reply]] = {address: [] for address in here.report.markets}
    for row in rows[first:]:
        here = here.step(row)
        for address, market in here.report.markets.items():
            replies[address] += [entry.reply for entry in market.journal]
    whole = daisyhook.replay(script)
    same('rows step by step', here.dump, whole.dump)
    same('their replies', replies, {address: [entry.reply for entry in one.journal] for address, one in whole.markets.items()})


def try_swaps() -> None:
    """Swaps: the stored report, its legs, the data of a leg, and a row whose legs do not go together."""
    script, wanted = (root / 'tests' / 'data' / f'swaps.{kind}' for kind in ('csv', 'report'))
    report = daisyhook.replay(script.read_bytes())
    same('a report with swaps', report.text, wanted.read_bytes())
    same('swaps, and which of them acted', {row: swap.acted for row, swap in report.swaps.items()},
         {17: True, 18: False, 19: False, 20: False, 22: True})
    legs = [(swap.row, leg) for swap in report.swaps.values() for leg in swap.legs]
    same('legs that were held back', [(row, leg.market) for row, leg in legs if leg.is_held_back], [(18, 'm'), (19, 'n')])
    same('legs that were refused', [(row, leg.market, leg.entry.reply.number) for row, leg in legs if leg.is_refused],
         [(18, 'n', 22), (19, 'm', 20), (20, 'm', 20), (20, 'n', 1)])
    same('a report without swaps', daisyhook.Report((root / 'examples' / 'deep_book.report').read_bytes()).swaps, {})
    rows = [row.split(',') for row in script.read_text().splitlines()]
    same('data of both legs', [daisyhook.take_data('bid', 60, 1, 700, 1, 0, 10), daisyhook.take_data('ask', 65, 1, 1, 0, 600, 10)],
         [rows[16][6], rows[16][10]])
    rows[16][7] = 'm'
    try:
        daisyhook.replay('\n'.join(map(','.join, rows)))
        same('a swap on one market', 'a report', 'a refusal')
    except daisyhook.ScriptRefused as refusal:
        same('a swap on one market', repr(refusal), "ScriptRefused(row=17, kind=10, name='BadSwap')")


def values_of(accounts: daisyhook.Accounts) -> list[object]:
    """All that is read from accounts."""
    markets = accounts.markets.values()
    names = ('address', 'authority', 'coin_mint', 'pc_mint', 'coin_lot', 'pc_lot', 'coin_vault', 'pc_vault', 'pc_fees', 'events', 'bids', 'asks',
             'open_orders')
    return [accounts.mints, accounts.wallets, accounts.srm, accounts.msrm, [[getattr(market, name) for name in names] for market in markets]]


def try_dumps() -> None:
    """Dumps that an audit takes are read as it reads them: with fields in quotes, other line ends, a mark in front, and addresses in digits."""
    dump = daisyhook.dump((root / 'examples' / 'discount_and_referrer.csv').read_bytes())
    wanted = values_of(daisyhook.accounts(dump))
    rows = [row.split(b',') for row in dump.splitlines()]
    quoted = b'\n'.join(b','.join(b'"%s"' % field for field in row) for row in rows)
    half = dump.replace(b'wallet,', b'"wall"et,').replace(b'orders,m,', b'orders,"m",')
    digits = dump.replace(b'orders,m,', b'orders,0x6d%s,' % (b'0' * 62)).replace(b'wallet,ann_coin,', b'wallet,0x%s,' % b'ann_coin'.hex().encode().ljust(64, b'0'))
    for name, told in (('all fields', quoted), ('some fields', half), ('line ends', dump.replace(b'\n', b'\r\n')), ('returns', dump.replace(b'\n', b'\r')),
                       ('empty lines', dump.replace(b'\n', b'\n\n')), ('a mark', b'\xef\xbb\xbf' + dump), ('digits', digits)):
        same(f'a dump written otherwise: {name}', values_of(daisyhook.accounts(told)), wanted)
    large = daisyhook.migrate(dump, 5000, 10)
    same('a dump with a large account', values_of(daisyhook.accounts(large)), wanted)


def refused(what: str, kind: type[Exception], call: Callable[[], object]) -> None:
    """Counts a call as passed where it raises just this exception."""
    try:
        found = call()
    except Exception as fault:
        found = type(fault)
    same(what, found, kind)


def try_inputs() -> None:
    """What is no text or no whole number is refused, and an input of one byte too many is what the program says of it."""
    for name in ('replay', 'dump', 'worth', 'shards', 'audit', 'accounts', 'Exchange'):
        for wrong in (5, 0, None, 1.5, [1, 2], True):
            refused(f'{name}({wrong!r})', TypeError, lambda: getattr(daisyhook, name)(wrong))
    refused('migrate of a number', TypeError, lambda: daisyhook.migrate(5, 1, 1))
    refused('rows that are no whole number', TypeError, lambda: daisyhook.make(1, 1.0))
    long = bytes(67_108_865)
    for name in ('replay', 'audit', 'accounts'):
        refused(f'{name} of 64 MiB and a byte', daisyhook.InputTooLong, lambda: getattr(daisyhook, name)(long))
    told = daisyhook.InputTooLong()
    same('what it says', (told.status, told.text, repr(pickle.loads(pickle.dumps(told)))), (6, 'input too long\n', repr(told)))
    for text in (bytearray(b'enddump'), memoryview(b'enddump'), 'enddump'):
        refused(f'a text as {type(text).__name__}', daisyhook.ScriptRefused, lambda: daisyhook.replay(text))


def try_parts() -> None:
    """Where a script may be cut: a swap joins its markets, and so does a wallet that rows of both name; a wallet that none names is of shard 0."""
    rows = (root / 'tests' / 'data' / 'swaps.csv').read_text().splitlines(keepends=True)
    joined = daisyhook.shards(''.join(rows))
    same('markets that a swap joins', (joined.markets, joined.wallets, joined.rows), ([0, 0], [0] * 6, [0] * 18))
    apart = daisyhook.shards(''.join(row for row in rows[:-1] if not row.startswith('swap,')))
    same('markets that share no wallet', (apart.markets, apart.wallets, apart.rows), ([0, 1], [0, 1, 0, 0, 0, 0], [0, 1, 0, 1, 0, 0, 1]))
    same('parts of at most five rows', daisyhook.chained(''.join(rows), 5), [4, 4, 5, 5])
    same('parts of one row, or a swap', daisyhook.chained(''.join(rows), 1), [1, 1, 1, 1, 2, 2, 2, 2, 1, 2, 1, 1, 1])
    refused('parts of no row', daisyhook.OutOfLimits, lambda: daisyhook.chained('', 0))
    refused('parts of what is no script', daisyhook.ScriptRefused, lambda: daisyhook.chained('enddump', 5))


def try_relative_path() -> None:
    """A library that is named without a folder is that of the folder where the program runs."""
    path = Path(os.environ['DAISYHOOK_LIBRARY']).resolve()
    given = dict(os.environ, DAISYHOOK_LIBRARY=path.name, PYTHONPATH=str(root / 'library'))
    done = subprocess.run([sys.executable, '-c', "import daisyhook; print(daisyhook.audit(b'dump\\nenddump\\n'))"], cwd=path.parent, env=given,
                          capture_output=True, text=True, check=False)
    same('a library named without a folder', (done.stdout, done.stderr), ('[]\n', ''))


with ThreadPoolExecutor(4) as threads:
    for told in threads.map(try_case, sys.argv[2:] * 2):
        same(*told)
for path in (*sorted((root / 'examples').glob('*.report')), root / 'tests' / 'data' / 'swaps.report'):
    try_report(path.read_bytes())
for name in ('examples/two_traders', 'examples/deep_book', 'examples/discount_and_referrer', 'tests/data/swaps'):
    try_steps((root / f'{name}.csv').read_text())
try_swaps()
try_dumps()
try_inputs()
try_parts()
if 'DAISYHOOK_LIBRARY' in os.environ:
    try_relative_path()
traders = daisyhook.replay((root / 'examples' / 'two_traders.csv').read_text())
same('what rests in two_traders', traders.markets['m'].depth, daisyhook.Depth((), (daisyhook.Level(50, 1, 1),)))
same('what Ann holds', traders.wallets['ann_usd'].amount, 1500)
same('what Ann is worth', daisyhook.worth((root / 'examples' / 'two_traders.csv').read_text()).markets['m']['amy'], daisyhook.Worth(-300, 1500))
end()
