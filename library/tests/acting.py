"""Rows by `Market.process`, beside a replay of the same rows.

acting.py ROOT [FOLDER] plays each script of examples/ and tests/cases that is a script without swaps, row by row, on
the bytes of its markets: the replies, the accounts and the wallets are those of the replay, byte by byte, and a refusal
changes nothing. Then made scripts, and random rows with all instructions. Where a FOLDER is named, the rows of each
market that is alone are written there for acting.c. Prints 'N passed, M failed'.
"""

import random
import re
import sys
from pathlib import Path

from counting import end, root, same
import daisyhook
from daisyhook import data, rows
from daisyhook.accounts import rows_of
from daisyhook.addresses import address_bytes, address_of
from daisyhook.entries import reply_of
from base64 import b64decode

folder = Path(sys.argv[2]) if len(sys.argv) > 2 else None
INSTRUCTIONS = ('do', 'ix', 'swap', 'clock')


def text_of(fields: list[str]) -> str:
    """A row as text."""
    return ','.join(fields) + '\n'


def state_of(markets: dict[str, daisyhook.Market]) -> list[bytes]:
    """All bytes of the markets and of their wallets, and what is kept of pending fills."""
    some = next(iter(markets.values()))
    return [bytes(held) for one in markets.values() for held in (*one.parts.values(), one.orders, one._market[-32:])] + [
        bytes(held) for held in some.wallets.values()]


def sized(data: bytes) -> bytes:
    """Bytes behind their length."""
    return len(data).to_bytes(8, 'little') + data


class Steps:
    """The accounts of a market, its rows with what each is answered, and the accounts that they leave, as acting.c
    reads them."""

    def __init__(self, market: daisyhook.Market) -> None:
        self.market, self.steps = market, []
        self.text = market._market[:64] + self.accounts()
        self.program, *self.has, self.srm, self.msrm = market._end

    def accounts(self) -> bytes:
        """All accounts as they are, and the wallets with their addresses."""
        held = b''.join(map(sized, (*self.market.parts.values(), self.market.orders)))
        wallets = b''.join(address_bytes(word) + data for word, data in self.market.wallets.items())
        return held + sized(wallets)

    def add(self, signer: str, names: tuple[str, ...], data: bytes, roles: tuple[str | None, ...]) -> None:
        """One more row."""
        places = list(self.market.wallets)
        numbers = bytes(255 if word is None else places.index(word) for word in roles)
        self.steps.append(address_bytes(signer) + sized(b''.join(map(address_bytes, names))) + sized(data) + self.market.clock.to_bytes(8, 'little')
                          + numbers + bytes([self.program, *self.has]) + self.srm + self.msrm)

    def write(self, path: Path, replies: list[str]) -> None:
        """Writes them, with what each row is answered."""
        steps = b''.join(step + sized(reply.encode()) for step, reply in zip(self.steps, replies, strict=True))
        path.write_bytes(self.text + len(self.steps).to_bytes(8, 'little') + steps + self.accounts())


def told_in(report: bytes) -> list[str]:
    """What each entry of the report of one market says that it was answered."""
    lines = [line.split(' ') for line in report.decode().splitlines() if line.startswith('entry ')]
    return [' '.join(words[3:reply_of(words)[1]]) for words in lines]


def word_of(field: str) -> str | None:
    """The wallet of a role."""
    return None if field == '-' else address_of(field)


def act(markets: dict[str, daisyhook.Market], row: list[str], steps: Steps | None) -> tuple[str, daisyhook.Reply]:
    """Lets a row act: its market, and its reply."""
    kind, _, market, signer, named, *roles, said = row
    instruction = data.of_words(said) if kind == 'do' else b64decode(said)
    names = () if named == '-' else tuple(map(address_of, named.split(' ')))
    coin, pc, discount, referrer = map(word_of, roles)
    address = address_of(market)
    if steps:
        steps.add(address_of(signer), names, instruction, (coin, pc, discount, referrer))
    return address, markets[address].process(address_of(signer), instruction, named=names, coin=coin, pc=pc, discount=discount, referrer=referrer)


def play(name: str, script: str) -> None:
    """Plays a script on its markets, beside its replay."""
    all_rows = list(rows_of(script.encode()))
    first = next((at for at, row in enumerate(all_rows) if row[0] in INSTRUCTIONS), len(all_rows))
    setup = ''.join(map(text_of, all_rows[:first]))
    program = next((row[1] for row in all_rows if row[0] == 'program'), 'serum')
    start = daisyhook.dump(setup)
    whole = daisyhook.replay(script)
    markets: dict[str, daisyhook.Market] = {}
    for address in whole.markets:
        shared = next(iter(markets.values())).wallets if markets else None
        markets[address] = daisyhook.Market(start, address, program=program, wallets=shared)
    steps = Steps(next(iter(markets.values()))) if folder and len(markets) == 1 else None
    replies: dict[str, list[daisyhook.Reply]] = {address: [] for address in markets}
    for row in all_rows[first:]:
        if row[0] == 'clock':
            for one in markets.values():
                one.clock = int(row[1])
            continue
        before = state_of(markets)
        address, reply = act(markets, row, steps)
        replies[address].append(reply)
        if isinstance(reply, daisyhook.Refused):
            same(f'{name}: {row} changes nothing', state_of(markets) == before, True)
    if steps:
        steps.write(folder / (re.sub('[^a-z0-9]', '_', name) + '.steps'), told_in(whole.text))
    same(f'{name}: replies', replies, {address: [entry.reply for entry in one.journal] for address, one in whole.markets.items()})
    last = daisyhook.accounts(whole.dump)
    for address, one in markets.items():
        wanted = [b64decode(text) for text in last.markets[address]._fields]
        same(f'{name}: accounts of {address}', [bytes(held) for held in one.parts.values()], wanted)
        same(f'{name}: open-orders accounts of {address}', {word: one.open_orders(word) for word in one._places}, last.markets[address].open_orders)
        same(f'{name}: depth of {address}', one.depth(3), daisyhook.Depth(*(side[:3] for side in (last.markets[address].depth.bids, last.markets[address].depth.asks))))
        same(f'{name}: events of {address}', one.events, last.markets[address].events)
    if len(markets) == 1:
        same(f'{name}: dump', next(iter(markets.values())).dump(), whole.dump)
    if markets:
        same(f'{name}: wallets', {word: next(iter(markets.values())).amount(word) for word in last.wallets}, {word: one.amount for word, one in last.wallets.items()})


def stored() -> list[tuple[str, str]]:
    """The stored scripts: their names and texts, without those with swaps and those that are refused."""
    files = [*(root / 'examples').glob('*.csv'), *(root / 'tests/cases/rows').glob('*.csv')]
    files += [case.with_suffix('.in') for case in (root / 'tests/cases/replay').glob('*.words') if case.read_text().startswith('replay')]
    found = []
    for file in sorted(files):
        script = file.read_bytes()
        try:
            daisyhook.replay(script)
        except daisyhook.DexError:
            continue
        text = script.decode()
        if not re.search('^"?swap', text, re.MULTILINE):
            found.append((str(file.relative_to(root)), text))
    return found


def drawn(seed: int, count: int) -> str:
    """A script of one market with so many rows of all kinds, drawn from a seed; many of them are refused."""
    draws = random.Random(seed)
    traders = [rows.Trader('m', f'u{at}', f'a{at}', f'c{at}', f'q{at}', lane=at) for at in range(6)]
    text = rows.mint('coin', 6) + rows.mint('usd', 6) + rows.mint('srm', 6) + 'srm,srm\n'
    for who in traders:
        text += rows.wallet(who.coin, 'coin', who.signer, 10**6) + rows.wallet(who.pc, 'usd', who.signer, 10**7)
        text += rows.wallet(f's{who.lane}', 'srm', who.signer, draws.choice([0, 10**8, 10**12]))
    text += rows.market('m', 'coin', 'usd', 'admin', coin_lot=10, pc_lot=1, nodes=draws.choice([15, 63, 301]), events=draws.choice([16, 64, 300]))
    text += ''.join(rows.orders('m', who.account) for who in traders) + ''.join(rows.init(who) for who in traders[:-1])
    for _ in range(count):
        who, other = draws.choice(traders), draws.choice(traders)
        side, price = draws.choice(['bid', 'ask']), draws.randint(95, 105)
        pays = {'coin': who.coin} if side == 'ask' else {'pc': who.pc}
        if draws.random() < 0.1:
            pays = {'coin': other.coin, 'pc': other.pc}
        if draws.random() < 0.2:
            pays['discount'] = f's{who.lane}'
        kind = draws.random()
        if kind < 0.5:
            words = f'new {side} {price} {draws.randint(1, 9)} {draws.choice([1, 5000, 20000])} {draws.choice(rows.SELF_TRADES)} {draws.choice(rows.ORDER_TYPES)} {draws.randint(0, 9)} {draws.choice([0, 1, 3, 10, 65535])}'
            text += rows.row(who, words, named=[draws.choice([who, who, who, who, other]).account], **pays)
        elif kind < 0.6:
            words = f'take {side} {price} {draws.randint(1, 9)} 20000 {draws.choice([0, 0, 1, 4])} 0 {draws.choice([0, 1, 10])}'
            text += rows.row(who, words, coin=who.coin, pc=who.pc, discount=pays.get('discount'))
        elif kind < 0.75:
            text += rows.row(who, draws.choice([f'cancelc {draws.randint(0, 9)}', f'cancels {draws.randint(1, 9)} {draws.randint(1, 9)}']), named=[who.account])
        elif kind < 0.9:
            named = draws.sample([one.account for one in traders], draws.randint(1, 6))
            text += rows.row(who, f'consume {draws.choice([0, 1, 2, 5, 100])}', named=named)
        elif kind < 0.97:
            text += rows.row(who, 'settle', named=[who.account], coin=who.coin, pc=who.pc, referrer=draws.choice([None, None, other.pc, other.coin]))
        elif kind < 0.98:
            text += rows.init(who)
        elif kind < 0.99:
            text += rows.close(who)
        else:
            text += draws.choice([rows.row(who, 'match 5'), rows.clock(draws.randint(0, 100)), rows.row(who, 'disable') , rows.row(who, 'sweep', pc=who.pc)])
    admin = rows.Trader('m', 'admin', pc='q0')
    text += rows.row(admin, 'sweep', pc='q0') + rows.row(admin, 'disable')
    return text + ''.join(rows.row(admin, 'prune 9', named=[who.account]) for who in traders)


def main() -> None:
    """Plays all of them."""
    for name, script in stored():
        play(name, script)
    made = daisyhook.make(7, 4000).decode()
    play('make 7 4000', made)
    play('make 7 4000 on one market', ''.join(line for line in made.splitlines(keepends=True) if ',m1,' not in line))
    for seed in range(20):
        play(f'drawn rows of seed {seed}', drawn(seed, 500))
    end()


if __name__ == '__main__':
    main()
