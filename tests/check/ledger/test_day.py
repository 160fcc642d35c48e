"""The recorded day of examples/ledger: its morning and its transactions, replayed, are its evening."""

import json
import os
import subprocess
import sys
import unittest

from support import PROGRAM, ROOT, Folder, dex, ledger, ledger_apart

DAY = os.path.join(ROOT, "examples", "ledger")
MARKET = "66U5PsWRGHXAyG4kEQHBSdJH9BXhC1c2DLuNjH6mYpcq"
AUTHORITY = "5DXit8wTMu8cmUAYXwpreyz2ManLkZm7BiEHZaYekdjL"
SRM = "FfsnSwpeYAwKMouj31Gsdo8DAo15PcAzN9uXxpZaFHKv"
WORDS = ["--market", MARKET, "--authority", AUTHORITY, "--srm", SRM]


class Day(Folder):
    """The walk of examples/ledger/README.md, and what it says of a day with a transaction less."""

    def setUp(self) -> None:
        super().setUp()
        self.dump = self.save("morning.dump", ledger("dump", *WORDS, os.path.join(DAY, "morning")).out)

    def replayed(self, *files: str) -> str:
        """The report of the day's script, saved."""
        script = ledger("script", "--table", self.path("rows.txt"), self.dump, *files)
        self.assertEqual((script.status, script.err), (0, ""))
        return self.save("day.report", dex("replay", script.out))

    def test_morning(self) -> None:
        """The morning's dump is one that an audit finds nothing in, and its accounts are those of the files."""
        with open(self.dump, encoding="ascii") as file:
            self.assertEqual(dex("audit", file.read()), "audit ok 1 27\n")
        told = ledger("compare", self.dump, os.path.join(DAY, "morning"))
        self.assertEqual((told.status, told.out, told.err), (0, "", ""))

    def test_evening(self) -> None:
        """What comes out is the evening, every row of the table was accepted, and the morning is not the evening."""
        report = self.replayed(os.path.join(DAY, "transactions"))
        told = ledger_apart("compare", report, os.path.join(DAY, "evening"))
        self.assertEqual((told.status, told.out), (0, ""))
        with open(report, encoding="ascii") as file:
            entries = [line.split() for line in file if line.startswith("entry ")]
        with open(self.path("rows.txt"), encoding="ascii") as file:
            rows = [line.split() for line in file if line.startswith("row ")]
        self.assertEqual([entry[2] for entry in entries], [row[1] for row in rows])
        self.assertEqual({entry[3] for entry in entries}, {"ok"})
        self.assertGreater(sum("." in row[4] for row in rows), 0)
        told = ledger("compare", self.dump, os.path.join(DAY, "evening"))
        self.assertEqual(told.status, 1)

    def test_a_transaction_less(self) -> None:
        """Without its first cancel by id, or without its first order, the day tells what differs."""
        names = sorted(os.listdir(os.path.join(DAY, "transactions")))
        values = []
        for name in names:
            with open(os.path.join(DAY, "transactions", name), encoding="ascii") as file:
                values += json.load(file)
        self.replayed(os.path.join(DAY, "transactions"))
        with open(self.path("rows.txt"), encoding="ascii") as file:
            rows = [line.split() for line in file if line.startswith("row ")]
        for name, kind in (("CancelOrderV2", "bids"), ("NewOrderV3", "req_q")):
            signature = next(row[3] for row in rows if row[5] == name)
            less = [value for value in values if value["transaction"]["signatures"][0] != signature]
            self.assertEqual(len(less), len(values) - 1)
            told = ledger("compare", self.replayed(self.save("less.json", less)), os.path.join(DAY, "evening"))
            self.assertEqual(told.status, 1)
            self.assertIn(kind, {line.split()[0] for line in told.out.splitlines()})

    def test_made_again(self) -> None:
        """make_day.py makes the same transactions, and mornings and evenings that mean the same."""
        script = os.path.join(DAY, "make_day.py")
        subprocess.run([sys.executable, script, PROGRAM, self.path("again")], check=True, capture_output=True)
        for name in os.listdir(os.path.join(DAY, "transactions")):
            with open(os.path.join(DAY, "transactions", name), "rb") as file, open(self.path(f"again/transactions/{name}"), "rb") as other:
                self.assertEqual(file.read(), other.read(), name)
        for name in ("morning", "evening"):
            self.assertEqual(ledger("compare", os.path.join(DAY, name), self.path(f"again/{name}")).out, "")


if __name__ == "__main__":
    unittest.main()
