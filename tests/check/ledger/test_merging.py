"""Idle accounts put together: what an audit finds stays, what was merged can be put back, and native accounts are read."""

import base64
import copy
import importlib.machinery
import importlib.util
import os
import re
import unittest
from typing import Callable, Iterator

from support import ROOT, Folder, dex, example, ledger, listed_accounts, named, text_of, words_for

from bridge.dump_text import read_dump
from bridge.encoding import address_of, base58_text
from bridge.merging import merge_idle
from bridge.snapshot import Entry, Held, Snapshot
from bridge.tables import NATIVE_MINT

COIN_FREE, COIN_TOTAL, PC_FREE, PC_TOTAL, REFERRER = 77, 85, 93, 101, 3213
AMOUNT, SUPPLY = 64, 36


def with_number(data: bytes, place: int, number: int, length: int = 8) -> bytes:
    """Bytes with another number at a place."""
    return data[:place] + number.to_bytes(length, "little") + data[place + length :]


def number_of(data: bytes, place: int) -> int:
    """The number of 8 bytes at a place."""
    return int.from_bytes(data[place : place + 8], "little")


def more(data: bytes, place: int, amount: int) -> bytes:
    """Bytes with a number raised."""
    return with_number(data, place, (number_of(data, place) + amount) % 2**64)


def idle_account(market: bytes, number: int, coin: int, pc: int, referrer: int = 0) -> Held:
    """An open account without orders; stale ids stand in its free slots, as on a ledger."""
    data = bytearray(3228)
    data[:5], data[-7:] = b"serum", b"padding"
    data[5:13], data[13:45], data[45:77] = (5).to_bytes(8, "little"), market, number.to_bytes(32, "big")
    data[109:125], data[141:157] = bytes([255]) * 16, bytes(range(16))
    text = bytes(data)
    for place, amount in ((COIN_FREE, coin), (COIN_TOTAL, coin), (PC_FREE, pc), (PC_TOTAL, pc), (REFERRER, referrer)):
        text = with_number(text, place, amount)
    return Held(b"idle account" + number.to_bytes(20, "big"), text)


def with_idle(snapshot: Snapshot, amounts: list[tuple[int, int, int]]) -> Snapshot:
    """A sound snapshot with further accounts of these amounts, and its vaults, words and supplies raised by them."""
    after, (coin, pc, referrer) = copy.deepcopy(snapshot), (sum(each) for each in zip(*amounts))
    market = after.markets[0]
    market.orders += [idle_account(market.address, number, *each) for number, each in enumerate(amounts)]
    market.parts["coin_vault"] = more(market.parts["coin_vault"], AMOUNT, coin)
    market.parts["pc_vault"] = more(market.parts["pc_vault"], AMOUNT, pc + referrer)
    for place, amount in ((149, coin), (197, pc), (373, referrer)):
        market.data = more(market.data, place, amount)
    raised = {market.data[53:85]: coin, market.data[85:117]: pc + referrer}
    after.mints = [Held(held.address, more(held.data, SUPPLY, raised.get(held.address, 0))) for held in after.mints]
    return after


def found(snapshot: Snapshot) -> str:
    """What an audit says; the number of a row or of wallets and accounts aside."""
    return re.sub(r"audit ok .*", "audit ok", re.sub(r"refused row \d+", "refused row", dex("audit", text_of(snapshot))))


def merged(snapshot: Snapshot) -> Snapshot:
    """A snapshot of which the idle accounts are put together."""
    after = copy.deepcopy(snapshot)
    merge_idle(after, set())
    return after


class Findings(unittest.TestCase):
    """What an audit finds in damaged dumps, merged and not."""

    def setUp(self) -> None:
        self.sound = with_idle(example(), [(100 * number, 7000 + number, number % 3) for number in range(8)] + [(0, 0, 0)])

    def test_sound(self) -> None:
        """Nothing is found before and after; the funds are in one account and the wallets of each token in one."""
        after = merged(self.sound)
        self.assertEqual((found(self.sound), found(after)), ("audit ok\n", "audit ok\n"))
        names = [held.address.rstrip(b"\0").decode() for held in after.markets[0].orders]
        self.assertEqual(names, ["amy", "ben", "cal", "idle_0"])
        made = after.markets[0].orders[-1].data
        self.assertEqual([number_of(made, place) for place in (COIN_FREE, COIN_TOTAL, PC_FREE, PC_TOTAL, REFERRER)], [2800, 2800, 56028, 56028, 7])
        self.assertEqual([held.address.rstrip(b"\0") for held in after.wallets], [b"rest_0", b"rest_1"])

    def damages(self) -> Iterator[tuple[str, Callable[[Snapshot], None]]]:
        """Damages: of an idle account, of an active one, of vaults, words, wallets, mints, events and orders."""
        def of_orders(number: int, change: Callable[[bytes], bytes]) -> Callable[[Snapshot], None]:
            def act(snapshot: Snapshot) -> None:
                held = snapshot.markets[0].orders[number]
                snapshot.markets[0].orders[number] = Held(held.address, change(held.data))
            return act

        def of_part(part: str, change: Callable[[bytes], bytes]) -> Callable[[Snapshot], None]:
            def act(snapshot: Snapshot) -> None:
                snapshot.markets[0].parts[part] = change(snapshot.markets[0].parts[part])
            return act

        for number in (0, 4, 10):
            for place in (0, 5, 13, 45, COIN_FREE, COIN_TOTAL, PC_FREE, PC_TOTAL, 109, 124, 125, REFERRER, 3221):
                for step in (1, -1):
                    yield f"account {number} at {place} by {step}", of_orders(number, lambda data, place=place, step=step: with_number(
                        data, place, (data[place] + step) % 256, 1))
            yield f"funds of {number}", of_orders(number, lambda data: more(more(data, PC_FREE, 5), PC_TOTAL, 5))
            yield f"closed {number}", of_orders(number, lambda data: with_number(data, 5, 256))
            yield f"closed {number} with funds", of_orders(number, lambda data: more(with_number(data, 5, 256), COIN_TOTAL, 3))
        for part in ("coin_vault", "pc_vault"):
            for step in (1, -1):
                yield f"{part} by {step}", of_part(part, lambda data, step=step: more(data, AMOUNT, step))
        owner = self.sound.markets[0].orders[4].address
        event = self.sound.markets[0].parts["event_q"]
        first = 37 + 88 * number_of(event, 13)
        yield "an event of an idle account", of_part("event_q", lambda data: data[: first + 48] + owner + data[first + 80 :])
        yield "an event that pays more", of_part("event_q", lambda data: more(data, first + 8, 5))
        leaf = next(place for place in range(45, 3000, 72) if self.sound.markets[0].parts["bids"][place] == 2)
        yield "an order of an idle account", of_part("bids", lambda data: data[: leaf + 24] + owner + data[leaf + 56 :])
        yield "a broken side", of_part("asks", lambda data: with_number(data, 37, 77))
        yield "a broken ring", of_part("event_q", lambda data: with_number(data, 21, 99))

    def test_damaged(self) -> None:
        """Each damage is found as before. Some eighty of them are, and at least a few dozen are found at all."""
        told = 0
        for name, damage in self.damages():
            snapshot = copy.deepcopy(self.sound)
            damage(snapshot)
            before = found(snapshot)
            self.assertEqual(found(merged(snapshot)), before, name)
            told += before != "audit ok\n"
        self.assertGreater(told, 48)

    def test_of_the_page(self) -> None:
        """The damaged dumps of docs/REFUSED.md."""
        path = os.path.join(ROOT, "tests", "check", "damaged")
        loader = importlib.machinery.SourceFileLoader("damaged", path)
        spec = importlib.util.spec_from_loader("damaged", loader)
        assert spec is not None
        page = importlib.util.module_from_spec(spec)
        loader.exec_module(page)
        for name in [case[0] for case in page.CASES if case[0] not in ("size", "grammar")]:
            snapshot = read_dump(("\n".join(page.damaged(name)) + "\n").encode(), name)
            snapshot.markets[0].orders += with_idle(example(), [(0, 0, 0)] * 3).markets[0].orders[-3:]
            self.assertEqual(found(merged(snapshot)), found(snapshot), name)


class Large(Folder):
    """A market of 5,000 accounts, 40 of them with orders."""

    def active(self) -> Snapshot:
        """A market on which 40 traders have an order each, two of which were met by others."""
        rows = ["mint,coin,6", "mint,usd,6"]
        for number in range(40):
            rows += [f"wallet,c{number},coin,t{number},5000", f"wallet,p{number},usd,t{number},90000"]
        rows.append("market,m,coin,usd,admin,99,99,64,AAAAAABkAAAAAAAAAAoAAAAAAAAAAAAAAAAAAAAAAAEAAAAAAAAA")
        rows += [f"orders,m,a{number}" for number in range(40)]
        rows += [f"do,0,m,t{number},a{number},-,-,-,-,init" for number in range(40)]
        for number in range(40):
            price = 50 + number if number % 2 else 49 - number
            rows.append(f"do,0,m,t{number},a{number},c{number},p{number},-,-,new {'ask' if number % 2 else 'bid'} {price} 5 9000 decrement limit 1 9")
        rows.append("do,0,m,t2,a2,c2,p2,-,-,new bid 53 7 9000 decrement limit 2 9")
        return read_dump(dex("replay", "\n".join(rows) + "\n").encode(), "active")

    def test_five_thousand(self) -> None:
        """It is merged, audited and replayed; a vault that is short by 1 is found; what was merged can be put back."""
        snapshot = with_idle(self.active(), [(number % 500 * 100, number, number % 7) for number in range(4960)])
        files = self.save("all.json", listed_accounts(snapshot))
        kept = self.save("kept.txt", "".join(f"coin {base58_text(address_of(f'c{number}'))}\n" for number in range(3)) + "pc p1\n")
        words = ["dump", "--merge-idle", "--keep", kept, "--merged", self.path("list.txt"), *words_for(snapshot)]
        told = ledger(*words, files)
        self.assertEqual(told.status, 0, told.err)
        self.assertIn("4959 open-orders accounts, 1 open-orders accounts that hold nothing, 76 wallets", told.err)
        after = read_dump(told.out.encode(), "merged")
        self.assertEqual((len(after.markets[0].orders), len(after.wallets)), (41, 6))
        self.assertEqual(dex("audit", told.out), "audit ok 1 6\n")
        report = dex("replay", told.out + "do,0,m,t1,a1,c1,p1,-,-,new ask 60 1 1 decrement limit 9 9\n")
        self.assertIn(" ok order ", report.split("\ndump\n")[0])
        short = copy.deepcopy(snapshot)
        short.markets[0].parts["pc_vault"] = more(short.markets[0].parts["pc_vault"], AMOUNT, -1)
        less = ledger(*words, "--no-rest", self.save("short.json", listed_accounts(short)))
        self.assertIn(" 64 ", next(line for line in dex("audit", less.out).splitlines() if line.startswith("finding 9 ")))
        self.put_back(after, snapshot)

    def put_back(self, after: Snapshot, before: Snapshot) -> None:
        """Checks that the made accounts, replaced by what the list has, are the accounts of before."""
        with open(self.path("list.txt"), encoding="ascii") as file:
            rows = [line.strip().split(",") for line in file]
        made = {address_of(row[0]) for row in rows if row[0] != "-"}
        for held_now, held_before, kind in ((after.markets[0].orders, before.markets[0].orders, "orders"), (after.wallets, before.wallets, "wallet")):
            back = {held.address: held.data for held in held_now if held.address not in made}
            back.update({address_of(row[-2]): base64.b64decode(row[-1]) for row in rows if row[1] == kind})
            self.assertEqual(back, {held.address: held.data for held in held_before})

    def test_sums(self) -> None:
        """Funds that pass 64 bits together are in several accounts, and so are wallets."""
        snapshot = example()
        market = snapshot.markets[0]
        market.orders += [idle_account(market.address, number, 2**63, 1) for number in range(3)]
        snapshot.wallets = [Held(held.address, with_number(held.data, AMOUNT, 2**63 + 1)) for held in snapshot.wallets]
        merge_idle(snapshot, set())
        names = [held.address.rstrip(b"\0").decode() for held in market.orders + snapshot.wallets]
        self.assertEqual(names, ["amy", "ben", "cal", "idle_0", "idle_0_1", "idle_0_2", "rest_0", "rest_0_1", "rest_0_2",
                                 "rest_1", "rest_1_1", "rest_1_2"])
        self.assertEqual([number_of(held.data, COIN_FREE) for held in market.orders[3:]], [2**63] * 3)

    def test_native(self) -> None:
        """A native vault and wallet are read as their token amounts, and their mint's supply as what is held; compare passes over that."""
        snapshot = example()
        market = snapshot.markets[0]
        coin = market.data[53:85]
        change = lambda data: data.replace(coin, NATIVE_MINT)  # noqa: E731
        market.data = change(market.data)
        market.parts = {part: change(data) for part, data in market.parts.items()}
        snapshot.wallets = [Held(held.address, change(held.data)) for held in snapshot.wallets]
        snapshot.mints = [Held(NATIVE_MINT if held.address == coin else held.address, held.data) for held in snapshot.mints]
        native = (1).to_bytes(4, "little") + (2039280).to_bytes(8, "little")
        accounts = []
        for entry in snapshot.entries():
            data = entry.data
            if data[:32] == NATIVE_MINT and len(data) == 165:
                data = data[:109] + native + data[121:]
            if entry.address == NATIVE_MINT:
                data = with_number(data, SUPPLY, 0)
            accounts.append(named(Entry(entry.kind, entry.address, data)))
        files = self.save("native.json", accounts)
        told = ledger("dump", *words_for(snapshot), files)
        self.assertEqual((told.status, told.out), (0, text_of(snapshot)), told.err)
        self.assertIn("native accounts, read as plain ones", told.err)
        self.assertIn("its supply, which the ledger does not count", told.err)
        self.assertEqual(dex("audit", told.out), "audit ok 1 6\n")
        dump = self.save("native.dump", told.out)
        self.assertEqual((ledger("compare", dump, files).status, ledger("compare", "--bytes", dump, files).status), (0, 1))

    def test_words(self) -> None:
        """Words that go together, a name that is taken, and a file of addresses that is none."""
        snapshot = with_idle(example(), [(1, 1, 0)] * 3)
        files = self.save("all.json", listed_accounts(snapshot))
        self.assert_refused(ledger("dump", "--merged", self.path("x"), *words_for(snapshot), files), "--merge-idle")
        wrong = self.save("kept.txt", "a-b\n")
        self.assert_refused(ledger("dump", "--merge-idle", "--keep", wrong, *words_for(snapshot), files), "kept.txt", "line 1")
        snapshot.markets[0].orders[0] = Held(address_of("idle_0"), snapshot.markets[0].orders[0].data)
        taken = self.save("taken.json", listed_accounts(snapshot))
        self.assert_refused(ledger("dump", "--merge-idle", *words_for(snapshot), taken), "idle_0", "this name already")


if __name__ == "__main__":
    unittest.main()
