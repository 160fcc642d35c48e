"""Markets in memory: new ones, ones of a ledger's account JSON, copies, limits, words of addresses, and what checks find.

markets.py ROOT. Prints 'N passed, M failed'.
"""

import pickle
import subprocess
import sys
import tempfile
from collections.abc import Callable
from pathlib import Path

from counting import end, root, same
import daisyhook
from daisyhook import data, rows
from daisyhook.native import library

sys.path.insert(0, str(root))
from bridge.encoding import address_of, base58_of, dump_word  # noqa: E402


def raised(what: str, kind: type[Exception], call: Callable[[], object]) -> Exception | None:
    """Counts a call as passed where it raises just this exception."""
    try:
        found: object = call()
    except Exception as fault:
        same(what, type(fault), kind)
        return fault
    same(what, found, kind)
    return None


def two_traders() -> daisyhook.Market:
    """A new market with two traders, of whom one asks."""
    wallets = {'ann_coin': ('coin', 'ann', 1000), 'ann_usd': ('usd', 'ann', 0), 'bob_coin': ('coin', 'bob', 0), 'bob_usd': ('usd', 'bob', 5000)}
    market = daisyhook.Market.new(coin='coin', pc='usd', coin_lot=100, pc_lot=10, nodes=63, events=64, accounts=['amy', 'ben'], wallets=wallets, srm='srm')
    for person, account in (('ann', 'amy'), ('bob', 'ben')):
        same('an account is opened', market.process(person, data.init(), named=[account]), daisyhook.Done())
    told = market.process('ann', data.new_order(side='ask', price=50, lots=4, client=7), named=['amy'], coin='ann_coin')
    same('an ask', told.lots_resting, 4)
    return market


def try_new() -> None:
    """A new market is the one that a script's rows make."""
    script = rows.mint('coin', 9) + rows.mint('pc', 6) + rows.mint('ms', 0) + 'msrm,ms\n' + rows.wallet('w', 'ms', 'ann', 3)
    script += rows.market('n', 'coin', 'pc', 'boss', coin_lot=5, pc_lot=2, nodes=9, events=7) + rows.orders('n', 'amy')
    made = daisyhook.Market.new('n', authority='boss', coin_lot=5, pc_lot=2, nodes=9, events=7, accounts=['amy'], wallets={'w': ('ms', 'ann', 3)},
                                decimals={'coin': 9}, msrm='ms', program='openbook', clock=4)
    same('a new market', made.dump(), daisyhook.dump(script))
    same('its clock and program', (made.clock, made._program), (4, 1))
    raised('no nodes', ValueError, lambda: daisyhook.Market.new(nodes=0))
    raised('an address that is none', ValueError, lambda: daisyhook.Market.new(accounts=['A!']))
    raised('one word for accounts', TypeError, lambda: daisyhook.Market.new(accounts='amy'))
    raised('no such program', ValueError, lambda: daisyhook.Market.new(program='foo'))
    for clock in (2**63, -2**63 - 1):
        raised('no such clock', daisyhook.OutOfLimits, lambda: daisyhook.Market.new(clock=clock))
        raised('set later', daisyhook.OutOfLimits, lambda: setattr(made, 'clock', clock))
    raised('a clock that is no whole number', TypeError, lambda: setattr(made, 'clock', 1.5))
    same('the clock stays', made.clock, 4)
    raised('one mint for both', daisyhook.ScriptRefused, lambda: daisyhook.Market.new(coin='x', pc='x'))
    same('the largest sides', daisyhook.Market.new(nodes=65_536).depth(5), daisyhook.Depth((), ()))


def try_copies() -> None:
    """A copy changes by itself, with its wallets."""
    market = two_traders()
    before, copy = market.dump(), market.copy()
    same('a copy', copy.dump(), before)
    told = copy.process('bob', data.new_order(side='bid', price=60, lots=3, pc=2000), named=['ben'], pc='bob_usd')
    same('a bid on the copy', (told.lots_filled, copy.amount('bob_usd'), market.amount('bob_usd')), (3, 3000, 5000))
    same('the market stays', market.dump(), before)
    same('and a crank on it', copy.process('bob', data.consume(), named=['amy', 'ben']), daisyhook.Consumed(3))


def try_words() -> None:
    """Addresses in base58 and as digits are those of labels."""
    for word in ('amy', 'a' * 24, '0x' + '00' * 32, '0x' + 'ff' * 32, '0x' + '00' * 31 + '01'):
        same(f'base58 of {word}', daisyhook.addresses.address_bytes(base58_of(address_of(word))), address_of(word))
        same(f'its word {word}', daisyhook.addresses.address_word(base58_of(address_of(word))), dump_word(address_of(word)))
    for word in ('Amy', 'a' * 25, '0x' + '0' * 63, 'z' * 44, '1' * 33, 'l' * 40, ''):
        raised(f'{word!r} is no address', ValueError, lambda: daisyhook.addresses.address_bytes(word))
    raised('one word for those that are named', TypeError, lambda: two_traders().process('ann', data.init(), named='amy'))
    raised('one word in a row', TypeError, lambda: rows.row(rows.Trader('m', 'ann'), 'consume 1', named='amy'))
    base58, digits = (lambda word: base58_of(address_of(word))), (lambda word: '0x' + address_of(word).hex())
    plain = daisyhook.Market.new(accounts=['amy'], wallets={'w': ('coin', 'ann', 3)}, decimals={'coin': 9}, srm='srm')
    for spell in (base58, digits):
        spelt = {spell('w'): (spell('coin'), spell('ann'), 3)}
        made = daisyhook.Market.new(spell('m'), coin=spell('coin'), pc=spell('pc'), authority=spell('admin'), accounts=[spell('amy')], wallets=spelt,
                                    decimals={spell('coin'): 9}, srm=spell('srm'))
        same('a new market by such words', made.dump(), plain.dump())
        market = two_traders()
        told = market.process(spell('bob'), data.new_order(side='bid', price=60, lots=3, pc=2000), named=[spell('ben')], pc=spell('bob_usd'))
        same('a bid by such words', (told.lots_filled, market.amount(spell('bob_usd')), market.open_orders(spell('ben')).owner), (3, 3000, 'bob'))
    raised('a wallet that is not there', KeyError, lambda: market.process('bob', data.settle(), named=['ben'], coin='cat_coin'))
    raised('a market that is not there', KeyError, lambda: daisyhook.Market(market.dump(), 'n'))
    raised('seventeen accounts', ValueError, lambda: market.process('bob', data.consume(), named=['ben'] * 17))


def written(folder: str, dump: bytes) -> str:
    """A folder with the accounts of a dump as JSON."""
    place = f'{folder}/{len(list(Path(folder).iterdir()))}'
    subprocess.run([sys.executable, str(root / 'ledger'), 'accounts', place], input=dump, stdout=subprocess.DEVNULL, check=True)
    return place


def try_ledger(folder: str) -> None:
    """A market goes on from the JSON of its accounts, with the same replies, and what is wrong with JSON is told."""
    market = two_traders()
    place = written(folder, market.dump())
    taken = daisyhook.Market.from_accounts(place, authority='admin', srm='srm')
    same('a market of JSON', (taken.address, taken.notes, taken.dump()), ('m', (), market.dump()))
    named = daisyhook.Market.from_accounts(*sorted(map(str, Path(place).iterdir())), authority=base58_of(address_of('admin')), market=base58_of(address_of('m')),
                                           srm=base58_of(address_of('srm')))
    same('of its files', named.dump(), market.dump())
    for some in (market, taken):
        told = some.process('bob', data.new_order(side='bid', price=60, lots=3, pc=2000), named=['ben'], pc='bob_usd')
        same('a bid', told.lots_filled, 3)
    same('both markets', taken.dump(), market.dump())
    program = daisyhook.ledger.bridge('tables').PROGRAMS['openbook']
    other = written(folder, market.dump())
    for file in Path(other).iterdir():
        file.write_text(file.read_text().replace(base58_of(daisyhook.ledger.bridge('tables').PROGRAMS['serum']), base58_of(program)))
    same('the program of its owner', daisyhook.Market.from_accounts(other, authority='admin', srm='srm')._program, 1)
    for what, words in (('no authority', {'authority': '?'}), ('an account that is no market', {'authority': 'admin', 'market': 'amy'}),
                        ('another program', {'authority': 'admin', 'program': 'serum'}), ('a mint that is not there', {'authority': 'admin', 'srm': 'zzz'})):
        raised(what, daisyhook.AccountsRefused, lambda: daisyhook.Market.from_accounts(other, **words))
    fault = raised('a market that none is', daisyhook.AccountsRefused, lambda: daisyhook.Market.from_accounts(other, authority='admin', market='zzz'))
    same('told so', 'market zzz: none of the accounts' in str(fault), True)
    raised('no file', daisyhook.AccountsRefused, lambda: daisyhook.Market.from_accounts(folder + '/none', authority='admin'))
    broken = written(folder, market.dump())
    file = next(Path(broken).glob('*coin_vault*'))
    file.unlink()
    fault = raised('a vault that is missing', daisyhook.AccountsRefused, lambda: daisyhook.Market.from_accounts(broken, authority='admin'))
    same('told again', repr(pickle.loads(pickle.dumps(fault))), repr(fault))


def try_limits() -> None:
    """A market of more accounts than a script may have."""
    many = [f'a{at}' for at in range(100)]
    raised('a hundred accounts', daisyhook.ScriptRefused, lambda: daisyhook.Market.new(accounts=many))
    market = daisyhook.Market.new(accounts=many, nodes=15, events=8, limits=daisyhook.WIDE)
    same('the last of them', market.process('ann', data.init(), named=['a99']), daisyhook.Done())
    raised('its dump within the standard limits', daisyhook.DumpRefused, lambda: daisyhook.Market(market.dump()))
    same('its dump', daisyhook.Market(market.dump(), limits=daisyhook.WIDE).open_orders('a99').owner, 'ann')


# Of each planted fault the part and the place of the byte that is one less.
PLANTED = ('a vault short by 1', 'coin_vault', 64), ('a flag', 'events', 5), ('a key of a side', 'asks', 53), ('padding', 'market', 0)


def planted(market: daisyhook.Market, part: str, place: int) -> daisyhook.Market:
    """A copy of a market with one byte one less."""
    other = market.copy()
    other.parts[part][place] = (other.parts[part][place] - 1) % 256
    return other


def audited(dump: bytes) -> daisyhook.Flaw | None:
    """What an audit of a dump tells first."""
    try:
        return next((daisyhook.Flaw('finding', one.kind, one.account, one.place, one.found, one.wanted) for one in daisyhook.audit(dump)), None)
    except daisyhook.DumpRefused as refusal:
        return daisyhook.Flaw('fault', refusal.kind, refusal.account, refusal.place, refusal.found, refusal.wanted)


def try_audits() -> None:
    """Each planted fault is one that an audit of the dump tells."""
    market = two_traders()
    same('an audit of a sound market', audited(market.dump()), None)
    for what, part, place in PLANTED:
        flaw = audited(planted(market, part, place).dump())
        same(f'{what}: an audit tells it', flaw is None, False)


def try_checks() -> None:
    """A market is sound at first and behind each instruction; of changed bytes the flaw is told, and nothing is done."""
    market = two_traders()
    bid = data.new_order(side='bid', price=60, lots=3, pc=2000)
    same('a sound market', market.check(), None)
    same('a bid on it', market.process_checked('bob', bid, named=['ben'], pc='bob_usd').lots_filled, 3)
    same('sound again', market.check(), None)
    for what, part, place in PLANTED:
        other = planted(market, part, place)
        before, flaw = other.dump(), other.check()
        same(f'{what}: what an audit tells', flaw, audited(before))
        told = raised(f'{what}: nothing is done', daisyhook.NotSound, lambda: other.process_checked('bob', data.settle(), named=['ben'], coin='bob_coin'))
        same(f'{what}: why', (told.flaw, repr(pickle.loads(pickle.dumps(told)))), (flaw, repr(told)))
        same(f'{what}: the bytes', other.dump(), before)
    other = market.copy()
    other.wallets['bob_usd'][108] ^= 3
    same('wallets are not looked at', other.check(), None)
    raised('a wallet that is named', daisyhook.NotSound, lambda: other.process_checked('bob', bid, named=['ben'], pc='bob_usd'))
    other = market.copy()
    other.orders[32 * 1 + 3228:32 * 2 + 3228] = other.orders[:32]
    same('two accounts of one address', (other.check().what, other.check().account), ('twice', 'amy'))


try_new()
try_copies()
try_words()
with tempfile.TemporaryDirectory() as made:
    try_ledger(made)
try_limits()
try_audits()
if hasattr(library(), 'dex_process_checked'):
    try_checks()
end()
