"""Scripts in parts: what they hold, where they are cut, and what they leave when each goes on from the dump of the part before."""

import json
import os
import unittest

from support import Folder, dex, ledger
from test_day import DAY, WORDS

TRANSACTIONS = os.path.join(DAY, "transactions")
PROGRAM_ROW = "program,openbook"


class Parts(Folder):
    """The recorded day in parts."""

    def setUp(self) -> None:
        super().setUp()
        self.dump = self.save("morning.dump", ledger("dump", *WORDS, os.path.join(DAY, "morning")).out)
        self.whole = ledger("script", "--table", self.path("whole.txt"), self.dump, TRANSACTIONS).out.splitlines()

    def parts(self, name: str, *words: str) -> dict[str, list[str]]:
        """The rows of each part, by the names of the files."""
        told = ledger("script", "--parts", self.path(name), "--table", self.path(f"{name}.txt"), *words)
        self.assertEqual((told.status, told.out, told.err), (0, "", ""))
        found = {}
        for part in sorted(os.listdir(self.path(name))):
            with open(os.path.join(self.path(name), part), encoding="ascii") as file:
                found[part] = file.read().splitlines()
        return found

    def chained(self, parts: dict[str, list[str]]) -> str:
        """The dump that the last part leaves."""
        last = ""
        for rows in parts.values():
            last = dex("dump", last + "\n".join(rows) + "\n")
        return last

    def test_all_rows_and_one_end(self) -> None:
        """The parts have all rows of the script, none has more than asked for, and they leave what it leaves."""
        behind = self.whole.index("enddump") + 1
        acting = [row for row in self.whole[behind:] if row.startswith(("ix,", "swap,"))]
        end = dex("dump", "\n".join(self.whole) + "\n")
        self.assertTrue(end.endswith("enddump\n"))
        for most, least in ((1, 240), (37, 8), (1000, 1)):
            with self.subTest(most=most):
                parts = self.parts(f"of_{most}", "--rows", str(most), self.dump, TRANSACTIONS)
                self.assertGreaterEqual(len(parts), least)
                rows = [[row for row in part if row.startswith(("ix,", "swap,"))] for part in parts.values()]
                self.assertEqual([row for part in rows for row in part], acting)
                # Rows of one transaction stay together, and none has more than two here.
                self.assertLessEqual(max(map(len, rows)), max(most, 2))
                first, *others = parts.values()
                self.assertEqual(first[:behind], self.whole[:behind])
                self.assertTrue(all(part[0] == PROGRAM_ROW and part[1].startswith("clock,") for part in [first[behind:], *others]))
                self.assertEqual(self.chained(parts), end)

    def test_the_table_tells_each_row(self) -> None:
        """A row's number in the table counts from the first row behind the dump of its part, and the table tells all that it told of the whole."""
        parts = self.parts("few", "--rows", "50", self.dump, TRANSACTIONS)
        with open(self.path("few.txt"), encoding="ascii") as file:
            lines = file.read().splitlines()
        with open(self.path("whole.txt"), encoding="ascii") as file:
            whole = file.read().splitlines()
        self.assertEqual(lines[0], whole[0])
        told, part, acting = [], "", 0
        for line in lines[1:]:
            words = line.split(" ")
            if words[0] == "part":
                part = words[1]
                rows = parts[part][parts[part].index("enddump") + 1 :] if "enddump" in parts[part] else parts[part]
            elif words[0] == "row":
                self.assertTrue(rows[int(words[1]) - 1].startswith(("ix,", "swap,")), line)
                acting += 1
            told.append(" ".join(words[:1] + words[2:]) if words[0] == "row" else line)
        self.assertEqual([line for line in told if not line.startswith("part ")],
                         [" ".join(line.split(" ")[:1] + line.split(" ")[2:]) if line.startswith("row ") else line for line in whole[1:]])
        self.assertEqual(acting, sum(row.startswith(("ix,", "swap,")) for rows in parts.values() for row in rows))

    def test_a_day_ends_a_part(self) -> None:
        """Parts are cut where the day of the block time changes, and carry it in their names."""
        values = self.transactions()
        for value in values[100:]:
            value["blockTime"] += 86_400
        parts = self.parts("days", self.dump, self.save("days.json", values))
        self.assertEqual(list(parts), ["00001_2024-03-01.csv", "00002_2024-03-02.csv"])
        for value in values:
            value["blockTime"] = None
        serum = ["--program", "ERzZ1emMNrpAfDRjFKTSVLh9mjhDCQRHPaMTS9Mf8m6T", "--rules", "serum"]
        self.assertEqual(list(self.parts("none", *serum, self.dump, self.save("none.json", values))), ["00001.csv"])

    def transactions(self) -> list[dict]:
        """The transactions of the day."""
        values = []
        for name in sorted(os.listdir(TRANSACTIONS), key=lambda name: int(name.split(".")[0])):
            with open(os.path.join(TRANSACTIONS, name), encoding="ascii") as file:
                values += json.load(file)
        return values

    def test_a_refusal_leaves_nothing(self) -> None:
        """Where a transaction is refused there is no folder, also where parts were written before it."""
        values = self.transactions()
        values[200]["transaction"]["signatures"] = ["1"]
        told = ledger("script", "--parts", self.path("refused"), "--rows", "10", self.dump, self.save("bad.json", values))
        self.assert_refused(told, "is no signature")
        self.assertFalse([name for name in os.listdir(self.folder) if "refused" in name])
        values[200] = {**self.transactions()[200], "blockTime": 2**60}
        self.assert_refused(ledger("script", "--parts", self.path("refused"), self.dump, self.save("bad.json", values)), "blockTime")

    def test_words(self) -> None:
        """A folder that has files, rows without a folder, and odd numbers of rows are refused."""
        os.makedirs(self.path("full"))
        self.save("full/one", "")
        self.assert_refused(ledger("script", "--parts", self.path("full"), self.dump, TRANSACTIONS), "no empty folder")
        self.assert_refused(ledger("script", "--rows", "5", self.dump, TRANSACTIONS), "--parts")
        for rows in ("0", "-1", "x", "99999999999"):
            self.assert_refused(ledger("script", "--parts", self.path("none"), "--rows", rows, self.dump, TRANSACTIONS), "no number of rows")
        os.makedirs(self.path("empty"))
        self.assertEqual(ledger("script", "--parts", self.path("empty"), self.dump, TRANSACTIONS).status, 0)
        self.assertEqual(os.listdir(self.path("empty")), ["00001_2024-03-01.csv"])

    def test_no_transaction(self) -> None:
        """Without a row there is one part, the dump."""
        with open(self.dump, encoding="ascii") as file:
            self.assertEqual(self.parts("none", self.dump, self.save("none.json", [])), {"00001.csv": file.read().splitlines()})


if __name__ == "__main__":
    unittest.main()
