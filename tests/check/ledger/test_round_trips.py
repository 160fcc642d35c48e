"""Dumps as account JSON in each form, and back: the same dump, and the same bytes of every account."""

import itertools
import json
import os
import unittest
from typing import Any, Callable

from support import Folder, account, answer, example, ledger, ledger_apart, named, stored_dumps, text_of, words_for

from bridge.accounts import accounts_of_text, by_address
from bridge.dump_text import read_dump
from bridge.encoding import base58_text, base64_text
from bridge.making import Wanted, make_snapshot
from bridge.refusals import Refusal
from bridge.snapshot import Entry, Snapshot, is_blank
from bridge.tables import PROGRAMS, rent_exempt

Form = Callable[[list[Entry], str], list[Any]]


def alone(entries: list[Entry], encoding: str) -> list[Any]:
    """A file an account, as `solana account` prints it."""
    return [named(entry, encoding=encoding) for entry in entries]


def one_answer(entries: list[Entry], encoding: str) -> list[Any]:
    """One answer of getAccountInfo an account; the addresses stand beside."""
    return [answer(account(entry, encoding=encoding)) for entry in entries]


def batch(entries: list[Entry], encoding: str) -> list[Any]:
    """A batch of answers of getAccountInfo in one file."""
    return [one_answer(entries, encoding)]


def several(entries: list[Entry], encoding: str) -> list[Any]:
    """An answer of getMultipleAccounts."""
    return [answer([account(entry, encoding=encoding) for entry in entries])]


def of_program(entries: list[Entry], encoding: str) -> list[Any]:
    """An answer of getProgramAccounts."""
    return [{"jsonrpc": "2.0", "result": alone(entries, encoding), "id": 1}]


def of_program_with_context(entries: list[Entry], encoding: str) -> list[Any]:
    """An answer of getProgramAccounts with its context."""
    return [answer(alone(entries, encoding))]


def listed(entries: list[Entry], encoding: str) -> list[Any]:
    """A list of accounts with their addresses."""
    return [alone(entries, encoding)]


FORMS: tuple[Form, ...] = (alone, one_answer, batch, several, of_program, of_program_with_context, listed)


def wanted_of(snapshot: Snapshot) -> Wanted:
    """What a dump of a snapshot asks for."""
    blank = {held.address: market.address for market in snapshot.markets for held in market.orders if is_blank(held.data)}
    markets = [market.address for market in snapshot.markets]
    return Wanted(markets, [market.authority for market in snapshot.markets], snapshot.srm, snapshot.msrm, make_rest=False, blank=blank)


class EveryDump(Folder):
    """Every stored dump."""

    def back(self, snapshot: Snapshot, form: Form, encoding: str) -> Snapshot:
        """A snapshot as account JSON of a form, and back."""
        entries, accounts, place = list(snapshot.entries()), [], 0
        for number, value in enumerate(form(entries, encoding)):
            path = self.path(f"{number}.json")
            count = len(accounts_in(value))
            beside = "".join(base58_text(entry.address) + "\n" for entry in entries[place : place + count])
            self.save(f"{number}.addresses", beside) if form in (one_answer, batch, several) else None
            accounts += accounts_of_text(json.dumps(value).encode(), path)
            place += count
        return make_snapshot(by_address(accounts), wanted_of(snapshot))[0]

    def test_every_form(self) -> None:
        """Each dump in each form is the same dump again; what is refused is refused by an audit too (counted below)."""
        refused = same = 0
        for (path, text), form in itertools.product(stored_dumps(), FORMS):
            try:
                snapshot = read_dump(text.encode(), path)
                again = text_of(self.back(snapshot, form, "base64"))
            except Refusal:
                refused += 1
                self.assert_refused_by_audit(path)
                continue
            same += text_of(snapshot) == again
            if text_of(snapshot) != again:
                self.assert_refused_by_audit(path)
        self.assertGreaterEqual(same, 40 * len(FORMS))
        self.assertLess(refused, same)

    def assert_refused_by_audit(self, path: str) -> None:
        """Checks that a stored case is a dump that `audit`, or the command of the case, refuses."""
        with open(os.path.splitext(path)[0] + ".out", encoding="latin-1") as file:
            self.assertRegex(file.read(), r"^(dump|script) refused row ", path)

    def test_every_form_and_encoding_of_one(self) -> None:
        """One dump in each form and encoding."""
        snapshot = example()
        for form, encoding in itertools.product(FORMS, ("base64", "base58", "plain")):
            self.assertEqual(text_of(self.back(snapshot, form, encoding)), text_of(snapshot), (form.__name__, encoding))


def accounts_in(value: Any) -> list[Any]:
    """The accounts in a value of one of the forms."""
    while isinstance(value, dict) and "result" in value:
        value = value["result"]
    if isinstance(value, dict) and "value" in value:
        value = value["value"]
    return value if isinstance(value, list) else [value]


class Commands(Folder):
    """The commands themselves."""

    def test_accounts_and_back(self) -> None:
        """`accounts` of a report, and `dump` of its folder by the words that it printed, is the report's dump."""
        text = text_of(example())
        told = ledger_apart("accounts", self.path("out"), given=text.encode())
        self.assertEqual((told.status, told.err), (0, ""))
        self.assertEqual(ledger_apart("dump", *told.out.split(), self.path("out")).out, text)

    def test_several_markets_with_blank_accounts(self) -> None:
        """The same of a stored dump of several markets with accounts that were never opened."""
        blank = base64_text(bytes(3228))
        path, text = next((path, text) for path, text in stored_dumps() if path.endswith(".out") and text.count("\nmarket,") > 1 and blank in text)
        told = ledger("accounts", "--program", "openbook", self.path("out"), given=text.encode())
        again = ledger("dump", "--no-rest", "--program", "openbook", *told.out.split(), self.path("out"))
        self.assertEqual((again.out, again.status), (text, 0), path)

    def test_every_byte(self) -> None:
        """The file of each account has its address, its bytes and its lamports."""
        snapshot = example()
        ledger("accounts", self.path("out"), given=text_of(snapshot).encode())
        names = sorted(os.listdir(self.path("out")))
        entries = list(snapshot.entries())
        self.assertEqual(len(names), len(entries))
        for number, (name, entry) in enumerate(zip(names, entries), 1):
            self.assertEqual(name, f"{number:04}_{entry.kind}_{base58_text(entry.address)}.json")
            with open(self.path(f"out/{name}"), encoding="ascii") as file:
                found = json.load(file)
            self.assertEqual((found["pubkey"], found["account"]["data"]), (base58_text(entry.address), [base64_text(entry.data), "base64"]))
            self.assertEqual((found["account"]["lamports"], found["account"]["space"], found["account"]["executable"],
                              found["account"]["rentEpoch"]), (rent_exempt(len(entry.data)), len(entry.data), False, 2**64 - 1))

    def test_owners(self) -> None:
        """Token accounts and mints are the token program's, all others those of the program that is named."""
        ledger("accounts", "--program", "openbook", self.path("out"), given=text_of(example()).encode())
        for name in os.listdir(self.path("out")):
            with open(self.path(f"out/{name}"), encoding="ascii") as file:
                owner = json.load(file)["account"]["owner"]
            is_token = name[5:].startswith(("mint", "wallet", "coin_vault", "pc_vault"))
            self.assertEqual(owner, "TokenkegQfeZyiNwAJbNbGKPFXCWuBvf9Ss623VQ5DA" if is_token else base58_text(PROGRAMS["openbook"]))

    def test_addresses_in_every_way(self) -> None:
        """The market and the authority as labels, digits and base58."""
        snapshot = example()
        told = ledger("accounts", self.path("out"), given=text_of(snapshot).encode())
        market = snapshot.markets[0]
        for word in (base58_text(market.address), "0x" + market.address.hex(), market.address.rstrip(b"\0").decode()):
            again = ledger("dump", "--market", word, "--authority", "0x" + market.authority.hex(), self.path("out"))
            self.assertEqual(again.out, text_of(snapshot), told.out)

    def test_addresses_are_told_both_ways(self) -> None:
        """`address` tells base58 and the word of dumps."""
        told = ledger("address", "ann", "11111111111111111111111111111111").out
        self.assertEqual(told, f"{base58_text(b'ann'.ljust(32, bytes(1)))} ann\n{'1' * 32} 0x{'0' * 64}\n")

    def test_words(self) -> None:
        """The words that `words_for` of the tests makes are those that `accounts` prints, where there is one market."""
        snapshot = example()
        self.assertEqual(ledger("accounts", self.path("out"), given=text_of(snapshot).encode()).out.split(), words_for(snapshot))


class Names(Folder):
    """What a market names, and of which slots accounts are."""

    def test_names(self) -> None:
        """`names` tells the accounts that a market names, in the words of the market."""
        snapshot = example()
        market = snapshot.markets[0]
        told = ledger("names", self.save("market.json", named(next(market.entries()))))
        lines = dict(line.split() for line in told.out.splitlines())
        self.assertEqual(list(lines), ["coin_mint", "pc_mint", "coin_vault", "pc_vault", "req_q", "event_q", "bids", "asks"])
        for part in list(lines)[2:]:
            self.assertEqual(lines[part], base58_text(market.part_address(part)))
        self.assertEqual(lines["coin_mint"], base58_text(snapshot.mints[0].address))
        self.assert_refused(ledger("names", self.save("mint.json", named(next(snapshot.entries())))), "mint.json", "no market")

    def test_slots(self) -> None:
        """Accounts of several slots are told."""
        snapshot = example()
        entries = list(snapshot.entries())
        first, second = answer(alone(entries[:3], "base64")), answer(alone(entries[3:], "base64"))
        files = [self.save("1.json", first), self.save("2.json", second)]
        self.assertEqual(ledger("dump", *words_for(snapshot), *files).err, "")
        second["result"]["context"]["slot"] = 7
        told = ledger("dump", *words_for(snapshot), files[0], self.save("2.json", second))
        self.assertEqual((told.out, told.err.count("\n")), (text_of(snapshot), 1))
        self.assertIn("slots 1 to 7", told.err)


class Rest(Folder):
    """What no account holds of a mint."""

    def test_rest(self) -> None:
        """A wallet is made for it, named after the mint's place, owned by `rest`; the sums are then right."""
        snapshot = example()
        entries = [entry for entry in snapshot.entries() if entry.address != snapshot.wallets[0].address]
        self.save("all.json", listed(entries, "base64")[0])
        made = ledger("dump", *words_for(snapshot), self.path("all.json"))
        self.assertEqual((made.status, made.err), (0, ""))
        again = read_dump(made.out.encode(), "made")
        wallet = again.wallets[-1]
        mint = [held.address for held in snapshot.mints].index(snapshot.wallets[0].data[:32])
        self.assertEqual(wallet.address, f"rest_{mint}".encode().ljust(32, b"\0"))
        expected = snapshot.wallets[0].data[:32] + b"rest".ljust(32, b"\0") + snapshot.wallets[0].data[64:]
        self.assertEqual(wallet.data, expected)
        unmade = ledger("dump", "--no-rest", *words_for(snapshot), self.path("all.json"))
        self.assertNotIn("rest_", unmade.out)


if __name__ == "__main__":
    unittest.main()
