"""Bad inputs of `dump`, `accounts` and `compare`: one line that names file, account and what to do, status 2, nothing written."""

import json
import os
import resource
import subprocess
import unittest
from dataclasses import replace
from typing import Any

from support import ROOT, SERUM, Folder, answer, dex, example, hostile, ledger, ledger_apart, listed_accounts, named, text_of, words_for, zstd_like

from bridge.encoding import base58_text, base64_text, shown
from bridge.snapshot import Entry

NOBODY = bytes([7]) * 32


class BadAccounts(Folder):
    """Files of accounts that are not taken."""

    def setUp(self) -> None:
        super().setUp()
        self.snapshot = example()
        self.accounts = listed_accounts(self.snapshot)
        self.words = words_for(self.snapshot)

    def refused(self, value: Any, *words: str, more: tuple[str, ...] = ()) -> None:
        """Checks that a file is refused with these words, among them the file's name."""
        path = self.save("given.json", value)
        self.assert_refused(ledger("dump", *more, *self.words, path), *words)

    def where(self, kind: str) -> int:
        """The place of the first account of a kind."""
        return [entry.kind for entry in self.snapshot.entries()].index(kind)

    def entry(self, kind: str) -> Entry:
        """The first account of a kind."""
        return list(self.snapshot.entries())[self.where(kind)]

    def changed(self, kind: str, **members: Any) -> list[Any]:
        """The accounts, of which the first of a kind has other members."""
        accounts = json.loads(json.dumps(self.accounts))
        accounts[self.where(kind)]["account"].update(members)
        return list(accounts)

    def without(self, kind: str) -> list[Any]:
        """The accounts without the first of a kind."""
        place = self.where(kind)
        return self.accounts[:place] + self.accounts[place + 1 :]

    def bytes_of(self, kind: str, data: bytes) -> list[Any]:
        """The accounts, of which the first of a kind has other bytes."""
        return self.changed(kind, data=[base64_text(data), "base64"])

    def test_no_json(self) -> None:
        """Files that are no JSON, or none of accounts."""
        self.refused(b"", "given.json", "empty", "save")
        self.refused(b"  \n", "given.json", "empty")
        self.refused(b"{", "given.json", "no JSON")
        self.refused(b"lamports: 5", "given.json", "no JSON")
        self.refused(b"\xff\xfe{\x00}\x00", "given.json", "UTF-8")
        self.refused(b"[" * 100000, "given.json", "nested too deep")
        for value in (5, '"text"', {"a": 1}, [[5]], True):
            self.refused(value, "given.json", "docs/LEDGER.md")
        self.refused({"jsonrpc": "2.0", "error": {"code": -32602, "message": "Invalid param"}, "id": 1}, "error", "Invalid param")
        self.refused({"transaction": {}, "meta": {}}, "transaction", "ledger script")

    def test_pipes(self) -> None:
        """A pipe in a folder, or as the addresses beside a file, is refused and not waited for; as a file by itself it is read."""
        os.mkdir(self.path("folder"))
        os.mkfifo(self.path("folder/a.json"))
        self.assert_refused(ledger("dump", *self.words, self.path("folder")), "folder/a.json", "no plain file")
        os.mkfifo(self.path("given.addresses"))
        self.refused(answer([entry["account"] for entry in self.accounts]), "given.addresses", "no plain file")
        path = self.save("all.json", self.accounts)
        line = " ".join([os.path.join(ROOT, "ledger"), "compare", path, f"<(cat {path})"])
        self.assertEqual(subprocess.run(["bash", "-c", line], check=False).returncode, 0)

    def test_json(self) -> None:
        """Keys twice, words that are no numbers, numbers without end, lists of lists of nothing, and answers with an error beside the result."""
        text = json.dumps(self.accounts[0])
        self.refused(text.replace('"owner"', '"owner": "x", "owner"'), "given.json", "no JSON", "'owner' twice")
        self.refused(text.replace('"lamports": 1', '"lamports": NaN'), "no JSON", "NaN")
        self.refused(text.replace('"lamports": 1', '"lamports": ' + "1" * 5000), "no JSON", "5000 digits")
        for wrong in ("[[], []]", "[[]]", '{"result": [[]]}'):
            self.refused(wrong, "an empty list stands in a list")
        for wrong in ("[1", "[1,]", "[1 2]", "[] []", "[]x", "[,]", "{} {}", "nul"):
            self.refused(wrong, "given.json")
        self.refused({"result": self.accounts, "error": {"code": 1}}, "answered with an error")
        for good in (text_of(self.snapshot),):
            for spaced in (json.dumps(self.accounts, indent=1), "\ufeff \n" + json.dumps(self.accounts) + "\r\n\t "):
                self.assertEqual(ledger("dump", *self.words, self.save("given.json", spaced)).out, good)

    def test_many_short_parts(self) -> None:
        """A hundred megabytes of empty lists, wherever they stand, and of numbers and small objects, are told within five seconds of the processor."""
        dump, lists = self.save("a.dump", text_of(self.snapshot)), "[" + "[]," * 33000000 + "[]]"
        account = '[{"pubkey": "%s", "account": %s}]' % (base58_text(NOBODY), lists)
        dumped = ["dump", *self.words]
        for text, words in ((lists, dumped), ('{"result": %s}' % lists, dumped), ('{"result": {"value": %s}}' % lists, dumped), (account, dumped),
                            ('{"result": [' + '{"a": [[[]]]}, ' * 7000000 + "{}]}", dumped), ("[" + "1," * 49000000 + "1]", dumped),
                            ("[]" * 50000000, ["script", dump]), ('{"result": %s}' % lists, ["script", dump])):
            path, before = self.save("given.json", text), resource.getrusage(resource.RUSAGE_CHILDREN)
            self.assert_refused(ledger_apart(*words, path), "given.json")
            after = resource.getrusage(resource.RUSAGE_CHILDREN)
            self.assertLess(after.ru_utime + after.ru_stime - before.ru_utime - before.ru_stime, 5)

    def test_parts(self) -> None:
        """A million short parts are read; in longer texts they have four bytes each at least."""
        for text, is_read in (("[" + "1," * 999999 + "1]", True), ("[" + "1," * 1000000 + "1]", False), ("[" + "1111," * 1000000 + "1]", True)):
            self.refused(text, "no account" if is_read else "more than accounts or transactions have")

    def test_no_file(self) -> None:
        """Files that are not there, and folders without JSON."""
        self.assert_refused(ledger("dump", *self.words, self.path("none.json")), "none.json", "cannot be read")
        self.assert_refused(ledger("dump", *self.words, self.folder), "no file that ends with .json")
        self.assert_refused(ledger("compare", self.path("a"), self.path("b")), "cannot be read")

    def test_encodings(self) -> None:
        """Data that is no base64 or base58, and encodings that are not read."""
        name = shown(self.entry("wallet").address)
        self.refused(self.changed("wallet", data=["A===", "base64"]), "given.json", name, "no base64")
        self.refused(self.changed("wallet", data=["0OIl", "base58"]), "given.json", name, "no base58")
        self.refused(self.changed("wallet", data="0OIl"), "given.json", name, "no base58")
        for data in ("2" * 4000000, ["2" * 4000000, "base58"]):
            self.refused(self.changed("wallet", data=data), name, "4000000 signs", '"encoding": "base64"')
        self.refused(self.changed("wallet", data=zstd_like(b"")), name, "base64+zstd", '"encoding": "base64"')
        self.refused(self.changed("wallet", data={"parsed": {}, "program": "spl-token", "space": 165}), name, "jsonParsed", '"encoding": "base64"')
        self.refused(self.changed("wallet", data=["AAAA", "hex"]), name, "hex")
        for data in ([], ["AAAA"], [5, "base64"], None, 5):
            self.refused(self.changed("wallet", data=data), name, "base64")

    def test_addresses(self) -> None:
        """Addresses that are none."""
        self.refused(self.changed("wallet", owner="xyz" * 12), "given.json", shown(self.entry("wallet").address), "no address")
        self.refused(self.changed("wallet", owner=5), "given.json", "no address")
        self.refused([{"pubkey": "0" * 44, "account": self.accounts[0]["account"]}], "given.json", "0" * 44, "no address")
        self.refused([{"pubkey": [], "account": self.accounts[0]["account"]}], "given.json", "no address")
        ended = ledger("dump", "--market", "Not an address", "--authority", "a", self.save("given.json", self.accounts))
        self.assert_refused(ended, "--market", "Not an address")

    def test_members(self) -> None:
        """Accounts without members, null accounts, and accounts that are cut."""
        name = shown(self.entry("mint").address)
        broken = self.changed("mint")
        del broken[0]["account"]["owner"]
        self.refused(broken, "given.json", name, "owner")
        self.refused([{"pubkey": base58_text(NOBODY), "account": None}], "given.json", base58_text(NOBODY), "no such account")
        self.refused([{"pubkey": base58_text(NOBODY), "account": 5}], "given.json", base58_text(NOBODY), "no account")
        self.refused(self.changed("mint", space=83), name, "82", "83", "dataSlice")
        self.refused(self.changed("mint", space="82"), name, "space")

    def test_addresses_beside(self) -> None:
        """Answers without addresses, with too few, too many and bad ones beside."""
        value = answer([entry["account"] for entry in self.accounts])
        self.refused(value, "given.json", "given.addresses", "one a line")
        lines = [entry["pubkey"] for entry in self.accounts]
        self.save("given.addresses", "\n".join(lines[:-1]))
        self.refused(value, "given.addresses", "more answers")
        self.save("given.addresses", "\n".join(lines + [lines[0]]))
        self.refused(value, "given.addresses", "addresses")
        self.save("given.addresses", "\n".join(["wrong!"] + lines[1:]))
        self.refused(value, "given.addresses", "wrong!")
        self.save("given.addresses", b"\xff\xfe")
        self.refused(value, "given.addresses", "no text")
        self.save("given.addresses", "\n".join(lines))
        self.refused(answer([None] + value["result"]["value"][1:]), shown(self.entry("mint").address), "no such account")
        self.assertEqual(ledger("dump", *self.words, self.save("given.json", value)).out, text_of(self.snapshot))

    def test_missing(self) -> None:
        """Each account that the market names, and the market, are missed by their names."""
        for kind in ("market", "coin_vault", "pc_vault", "req_q", "event_q", "bids", "asks"):
            named_by = "--market" if kind == "market" else f"the market m names it as its {kind}"
            named_in = "words: " if kind == "market" else "given.json: "
            self.refused(self.without(kind), named_in, shown(self.entry(kind).address), named_by, "get its account")
        self.refused(self.without("mint"), shown(self.entry("mint").address), "the market m names it as its coin_mint")
        self.refused(self.accounts, base58_text(NOBODY), "--srm", more=("--srm", base58_text(NOBODY)))

    def test_twice(self) -> None:
        """Two accounts of one address, in one file and in two."""
        name = shown(self.entry("wallet").address)
        self.refused(self.accounts + [self.accounts[self.where("wallet")]], "given.json", name, "twice")
        one, two = self.save("one.json", self.accounts), self.save("two.json", self.accounts[self.where("wallet")])
        self.assert_refused(ledger("dump", *self.words, one, two), "one.json", "two.json", name, "twice")

    def test_lengths(self) -> None:
        """A length that is not the layout's."""
        for kind, length in (("market", 380), ("market", 1476), ("coin_vault", 170), ("req_q", 43), ("event_q", 131), ("bids", 123),
                             ("asks", 52), ("mint", 83), ("wallet", 355), ("open_orders", 3227), ("open_orders", 0)):
            data = self.entry(kind).data[:length].ljust(length, b"\0")
            self.refused(self.bytes_of(kind, data), "given.json", shown(self.entry(kind).address), f"{length} bytes")

    def test_owners(self) -> None:
        """A program that does not own accounts of the kind."""
        for kind in ("market", "coin_vault", "req_q", "event_q", "bids", "asks", "mint", "wallet", "open_orders"):
            name = shown(self.entry(kind).address)
            self.refused(self.changed(kind, owner=base58_text(NOBODY)), "given.json", name, base58_text(NOBODY), "owned by")
        self.refused(self.changed("bids", owner="srmqPvymJeFKQ4zGQed1GFppgkRHL9kaELCbyksJtPX"), "bids", base58_text(SERUM))
        self.refused(self.accounts, "owned by", base58_text(SERUM), more=("--program", "openbook"))

    def test_flags(self) -> None:
        """Flags that are another kind's; further flags are left to an audit."""
        for kind, flags in (("market", 5), ("market", 2), ("req_q", 17), ("event_q", 9), ("bids", 65), ("asks", 33), ("asks", 0),
                            ("open_orders", 3), ("open_orders", 0), ("open_orders", 4)):
            data = self.entry(kind).data
            data = data[:5] + flags.to_bytes(8, "little") + data[13:]
            self.refused(self.bytes_of(kind, data), "given.json", shown(self.entry(kind).address), str(flags))
        data = self.entry("market").data
        path = self.save("given.json", self.bytes_of("market", data[:5] + (3 + 512).to_bytes(8, "little") + data[13:]))
        self.assertEqual(ledger("dump", *self.words, path).status, 0)

    def test_supply(self) -> None:
        """A supply below what is held, with both sums."""
        data = self.entry("mint").data
        supply = int.from_bytes(data[36:44], "little")
        less = data[:36] + (supply - 1).to_bytes(8, "little") + data[44:]
        self.refused(self.bytes_of("mint", less), "given.json", shown(self.entry("mint").address), str(supply - 1), str(supply), "one slot")

    def test_odd_wallets(self) -> None:
        """Wallets with a delegate, half a word of native lamports, frozen or a close authority are refused, or left out and told."""
        name = shown(self.entry("wallet").address)
        for place in (72, 108, 110, 120, 121, 129, 164):
            data = self.entry("wallet").data
            data = data[:place] + bytes([data[place] + 1]) + data[place + 1 :]
            self.refused(self.bytes_of("wallet", data), "given.json", name, f"at place {place}", "--leave-out-wallets")
            path = self.save("given.json", self.bytes_of("wallet", data))
            told = ledger("dump", "--leave-out-wallets", *self.words, path)
            self.assertEqual((told.status, told.err.count("\n")), (0, 1))
            self.assertIn(name, told.err)
            self.assertNotIn(f"wallet,{name},", told.out)

    def test_left_out(self) -> None:
        """Wallets of other mints, and accounts of other markets, are left out and told."""
        wallet, orders = self.entry("wallet"), self.entry("open_orders")
        more = [named(Entry("wallet", bytes([8]) * 32, NOBODY + wallet.data[32:])),
                named(Entry("open_orders", bytes([9]) * 32, orders.data[:13] + NOBODY + orders.data[45:])),
                named(Entry("bids", bytes([10]) * 32, self.entry("bids").data))]
        told = ledger("dump", *self.words, self.save("given.json", self.accounts + more))
        self.assertEqual((told.status, told.out), (0, text_of(self.snapshot)))
        self.assertEqual(told.err.count("\n"), 3)
        for byte in (8, 9, 10):
            self.assertIn(base58_text(bytes([byte]) * 32), told.err)

    def test_blank_accounts(self) -> None:
        """Which market a blank account is for is asked where there are several, and checked."""
        blank = [named(Entry("open_orders", NOBODY, bytes(3228)))]
        one = ledger("dump", *self.words, self.save("given.json", self.accounts + blank))
        self.assertIn(f"orders,m,0x{NOBODY.hex()},AAAA", one.out)
        self.refused(self.accounts, base58_text(NOBODY), "none of the files", more=("--blank", "m", base58_text(NOBODY)))
        self.refused(self.accounts + blank, "--blank", "--market", more=("--blank", "other", base58_text(NOBODY)))
        self.refused(self.accounts, "zero bytes", more=("--blank", "m", base58_text(self.entry("open_orders").address)))

    def test_words(self) -> None:
        """Words that say nothing that can be done."""
        path = self.save("given.json", self.accounts)
        cases: tuple[list[str], ...] = ([], ["dump"], ["sell"], ["dump", "--market", "m", path], ["dump", "--market", "m", "--market", "m", "--authority", "a", path],
                      ["dump", "--market", "m", "--authority", "a", "--authority", "b", path], ["dump", "--mark", "m", path],
                      ["compare", path], ["compare", "-", "-"], ["accounts"], ["script", path], ["dump", path])
        for words in cases:
            self.assert_refused(ledger(*words), "ledger: ")

    def test_hostile_values(self) -> None:
        """Members of any other form are refused, never a crash."""
        few = [self.accounts[self.where(kind)] for kind in ("mint", "wallet", "market")]
        for value in [*hostile(answer([few[0]])), *hostile(few), *hostile({"result": few[2]})]:
            told = ledger("dump", *self.words, self.save("given.json", value))
            self.assert_refused(told)

    def test_two_programs(self) -> None:
        """An open-orders account of another program than the market's."""
        self.refused(self.changed("open_orders", owner="srmqPvymJeFKQ4zGQed1GFppgkRHL9kaELCbyksJtPX"), "given.json",
                     shown(self.entry("open_orders").address), base58_text(SERUM))

    def test_closed_streams(self) -> None:
        """Standard input and output that are closed."""
        path = self.save("given.json", self.accounts)
        command = [os.path.join(ROOT, "ledger")]
        for words, redirection in ((["compare", "-", path], "<&-"), (["dump", *self.words, path], ">&-")):
            line = " ".join([*command, *words, redirection])
            done = subprocess.run(["bash", "-c", line], capture_output=True, check=False)
            self.assertEqual((done.returncode, done.stdout, done.stderr.count(b"\n")), (2, b"", 1), done.stderr)

    def test_standard_error(self) -> None:
        """Standard error that is full or closed changes no status and no output."""
        same = self.save("same.dump", text_of(self.snapshot))
        other = self.save("other.dump", text_of(replace(self.snapshot, wallets=self.snapshot.wallets[1:])))
        data = self.entry("wallet").data
        odd = self.save("odd.json", self.bytes_of("wallet", data[:72] + b"\1" + data[73:]))
        transaction = {"slot": 1, "meta": {"err": None}, "transaction": {"signatures": [base58_text(NOBODY * 2)], "message": {
            "header": {"numRequiredSignatures": 1}, "accountKeys": [base58_text(NOBODY)], "instructions": []}}}
        day = self.save("day.json", transaction)
        cases = (["compare", same, other], ["compare", same, self.path("none")], ["dump", *self.words, "--leave-out-wallets", odd],
                 ["script", same, day], ["compare", *self.same_meaning()])
        statuses = []
        for words in cases:
            line = " ".join([os.path.join(ROOT, "ledger"), *words])
            runs = [subprocess.run(["bash", "-c", line + where], capture_output=True, check=False) for where in ("", " 2> /dev/full", " 2>&-")]
            statuses.append(runs[0].returncode)
            for run in runs[1:]:
                self.assertEqual((run.returncode, run.stdout, run.stderr), (runs[0].returncode, runs[0].stdout, b""), words)
        self.assertEqual(statuses, [1, 2, 0, 0, 0])

    def same_meaning(self) -> list[str]:
        """Two dumps that differ in a byte that nobody reads, so that a note tells it."""
        data = bytearray(self.entry("bids").data)
        inner = next(place for place in range(45, len(data) - 72, 72) if data[place] == 1)
        data[inner + 8] ^= 1
        market = self.snapshot.markets[0]
        text = text_of(replace(self.snapshot, markets=[replace(market, parts={**market.parts, "bids": bytes(data)})]))
        return [self.save("one.dump", text_of(self.snapshot)), self.save("two.dump", text)]

    def test_full_device(self) -> None:
        """Standard output that takes nothing."""
        path = self.save("given.json", self.accounts)
        with open("/dev/full", "wb") as full:
            done = ledger_apart("dump", *self.words, path, out=full)
        self.assertEqual((done.status, done.err.count("\n")), (2, 1), done.err)


class BadDumps(Folder):
    """Dumps and reports that are not taken."""

    def refused(self, text: str, *words: str) -> None:
        """Checks that `accounts` refuses a text and makes no folder, and that `compare` refuses it too."""
        self.assert_refused(ledger("accounts", self.path("out"), given=text.encode("latin-1")), "standard input", *words)
        self.assertFalse(os.path.exists(self.path("out")))
        self.assert_refused(ledger("compare", self.save("a", text.encode("latin-1")), self.path("a")), *words)

    def mint(self) -> bytes:
        """The address of the example's first mint."""
        return example().mints[0].address

    def test_texts(self) -> None:
        """What is no dump or report, or is cut or broken."""
        text = text_of(example())
        self.refused("", "empty")
        self.refused("script refused row 12: 6 UnknownLabel\n", "script refused row 12", "dex dump")
        self.refused("report 5\nmarket m 0\n", "cut short")
        self.refused(text + "ix,0,m,ann,-,-,-,-,-,AA==\n", "nothing is wanted behind `enddump`")
        self.refused(text + text, "nothing is wanted behind `enddump`")
        self.refused(text + "end\n", "nothing is wanted behind `enddump`")
        self.refused(text.replace("enddump\n", ""), "cut short")
        self.refused(text[: len(text) // 2], "line ")
        self.refused(text.replace("wallet,", "walet,", 1), "line 4", "no row")
        self.refused(text.replace("mint,coin", "mint,Coin", 1), "line 2", "Coin")
        self.refused(text.replace("mint,coin,A", "mint,coin,?", 1), "line 2", "no base64")
        self.refused(text.replace("mint,coin,", f"mint,{base58_text(self.mint())},", 1), "line 2", "is no address")
        self.refused(text.replace("mint,coin,AAAA", "mint,coin,", 1), "line 2 (mint coin)", "79 bytes")
        self.refused(text.replace("orders,m,", "orders,n,", 1), "line", "market n")
        self.refused("dump\n" + text.split("\n")[1] + "\n" + text.split("\n", 1)[1], "line 3", "twice")
        self.refused(text.replace("mint", "m\xefnt", 1), "no dump or report")
        mint = text.split("\n")[1]
        self.refused(f"dump\n{mint}\nsrm,coin\nsrm,coin\nenddump\n", "line 4", "a second row names srm")
        self.refused(f"dump\n{mint}\nsrm,coin\nmsrm,coin\nenddump\n", "line 4", "one mint is srm and msrm")
        self.refused(f"dump\nsrm,coin\n{mint}\nenddump\n", "line 2", "no row before it has the mint coin")
        self.refused(text.replace("enddump", '"enddump'), "line 14", "no row of a dump")

    def test_reports(self) -> None:
        """Reports whose journals are not those of their accounts and rows, that are not ended, or have something behind their end."""
        with open(os.path.join(ROOT, "examples", "two_traders.report"), encoding="ascii") as file:
            text = file.read()
        dump = text[text.index("\ndump\n") + 1 :]
        lines = text.splitlines(keepends=True)
        self.assertEqual(ledger("compare", "-", self.save("a.report", text), given=text.encode()).status, 0)
        self.refused("report 0\n" + dump, "line 1", "the markets that have a journal are not those of the dump")
        self.refused("report 9\nmarket m 0\n" + dump, "line 1", "the wallets that have a journal")
        self.refused(text.replace("report 9", "report 8"), "line 1", "tells of 8 rows")
        self.refused("".join(lines[:2] + lines[3:]), "line 11", "`entry ..` is wanted, of which 8 of 9 stand above")
        self.refused(text.replace("move m 0 12", "move m 0 x"), "line 13", "`move ..` is wanted")
        self.refused("".join(lines[:11] + lines[:11][1:] + lines[11:]), "journal")
        self.refused(text.removesuffix("end\n"), "`end` alone is wanted behind `enddump`")
        for more in ("end\n", "clock,5\n", dump, text):
            self.refused(text + more, "`end` alone is wanted behind `enddump`")

    def test_folders(self) -> None:
        """A folder that is not empty, or cannot be made."""
        text = text_of(example()).encode()
        self.save("there", "x")
        self.assert_refused(ledger("accounts", self.folder, given=text), "not empty")
        self.assert_refused(ledger("accounts", self.path("there"), given=text), "there", "written")
        self.assert_refused(ledger("accounts", self.path("there/in"), given=text), "there/in", "written")

    def test_other_texts(self) -> None:
        """Carriage returns, a byte-order mark, empty lines and quoted fields are read as the exchange reads them."""
        text = text_of(example())
        quoted = text.replace("mint,coin,", '"mint","coin",', 1)
        every = "".join(",".join(f'"{field}"' for field in line.split(",")) + "\n" for line in text.splitlines())
        odd = text.replace("mint,coin,", '"mi"nt,"co"in,', 1)
        for given in (text.replace("\n", "\r\n"), text.replace("\n", "\r"), "\ufeff" + text, quoted, every, odd, text.replace("\n", "\n\n"), "\n" + text):
            self.assertTrue(dex("audit", given).startswith("audit ok "))
            told = ledger("compare", "-", self.save("a.dump", text), given=given.encode())
            self.assertEqual((told.status, told.out, told.err), (0, "", ""), given[:20])


if __name__ == "__main__":
    unittest.main()
