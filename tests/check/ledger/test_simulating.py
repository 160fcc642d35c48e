"""Transactions that were not sent: each of the recorded day does what the day's replay then does, all of it or nothing."""

import base64
import copy
import json
import os
import re
import unittest
from typing import Any

from support import PROGRAM, ROOT, Folder, dex, ledger
from test_day import DAY, WORDS
from unsent import BUDGET, message_of, transaction_of

from bridge.comparing import compare, compared_of, read_compared
from bridge.dump_text import dump_rows, read_dump
from bridge.encoding import base58_bytes, base58_text
from bridge.snapshot import Held, Snapshot
from bridge.tables import REASONS


def transactions() -> list[dict[str, Any]]:
    """The day's transactions; the program that its first instructions are of is the ledger's own that sets a budget."""
    values = []
    for name in sorted(os.listdir(os.path.join(DAY, "transactions"))):
        with open(os.path.join(DAY, "transactions", name), encoding="ascii") as file:
            values += json.load(file)
    for value in values:
        keys = value["transaction"]["message"]["accountKeys"]
        keys[value["transaction"]["message"]["instructions"][0]["programIdIndex"]] = BUDGET
    return values


def with_accounts(snapshot: Snapshot, told: list[dict[str, Any]]) -> Snapshot:
    """Accounts of which some are as an answer tells them."""
    after = copy.deepcopy(snapshot)
    data = {base58_bytes(one["pubkey"], 32): base64.b64decode(one["data"][0]) for one in told}
    after.wallets = [Held(held.address, data.get(held.address, held.data)) for held in after.wallets]
    for market in after.markets:
        known = {held.address for held in market.orders} | {market.address} | {market.part_address(part) for part in market.parts}
        known |= {held.address for held in after.wallets}
        market.parts = {part: data.get(market.part_address(part), market.parts[part]) for part in market.parts}
        market.data = data.get(market.address, market.data)
        market.orders = [Held(held.address, data.get(held.address, held.data)) for held in market.orders]
        market.orders += [Held(address, data[address]) for address in data if address not in known]
    return after


class Simulated(Folder):
    """A dump and transactions that are tried on it."""

    def setUp(self) -> None:
        super().setUp()
        self.dump = self.save("morning.dump", ledger("dump", *WORDS, os.path.join(DAY, "morning")).out)

    def simulate(self, *words: str) -> Any:
        """The answer of a simulation that is taken."""
        ended = ledger("simulate", "--dex", PROGRAM, *words)
        self.assertEqual(ended.status, 0, ended.err)
        self.told = ended.err
        return json.loads(ended.out)

    def given(self, value: dict[str, Any], number: int = 0) -> list[str]:
        """The words for a transaction: its text in one of four forms, or its JSON where it has inner calls."""
        words = ["--clock", str(value["blockTime"])] if value["blockTime"] is not None else []
        loaded = value["meta"].get("loadedAddresses")
        if loaded:
            words += ["--loaded", self.save("loaded.json", loaded)]
        if value["meta"]["innerInstructions"]:
            return ["--leave-out-unknown", self.dump, self.save("one.json", value)]
        data = (transaction_of if number % 2 else lambda one: message_of(one["message"]))(value["transaction"])
        text = base58_text(data) if number % 4 > 1 else base64.b64encode(data).decode()
        return [*words, "--leave-out-unknown", self.dump, self.save("one.txt", text + "\n")]


class Day(Simulated):
    """The recorded day, one transaction after the other."""

    def replies_of_the_day(self) -> dict[str, list[str]]:
        """What the replay of the whole day answers, by the signature of the transaction."""
        script = ledger("script", "--no-swaps", "--table", self.path("rows.txt"), self.dump, os.path.join(DAY, "transactions"))
        replies: dict[str, str] = {}
        for line in dex("replay", script.out).split("\ndump\n")[0].split("\n"):
            if line.startswith("entry "):
                replies[line.split(" ")[2]] = line.split(" ", 3)[3]
        told: dict[str, list[str]] = {}
        with open(self.path("rows.txt"), encoding="ascii") as file:
            for words in (line.split() for line in file if line.startswith("row ")):
                told.setdefault(words[3], []).append(replies[words[1]])
        return told

    def test_each_transaction(self) -> None:
        """Each says what the replay then does; its accounts after are those that the next one finds, and the last ones the evening's.
        Those that failed fail as they did, by instruction and number, but for two: one of which the record says that it failed by
        what has no row, and an order of an account that was closed, which the public program has no number of its own for."""
        told, failed = self.replies_of_the_day(), {}
        with open(self.dump, encoding="ascii") as file:
            now = read_dump(file.read().encode(), "morning")
        for number, value in enumerate(transactions()):
            answer = self.simulate(*self.given(value, number))
            rows = answer["daisyhook"]["rows"]
            if value["meta"]["err"] is not None:
                failed[number] = (answer["err"] == value["meta"]["err"], (answer["daisyhook"]["refusal"] or {}).get("name"))
                if answer["err"] is not None:
                    self.assertEqual(list(compare(compared_of(now), compared_of(with_accounts(now, answer["accounts"])), False, [])), [])
                continue
            self.assertIsNone(answer["err"], number)
            replies = told.get(value["transaction"]["signatures"][0], [])
            self.assertEqual(len(rows), len(replies), number)
            for row, reply in zip(rows, replies):
                self.assertTrue(f"{reply} ".startswith(f"{row['reply']} "), (number, row["reply"], reply))
            now = with_accounts(now, answer["accounts"])
            self.dump = self.save("now.dump", "".join(row + "\n" for row in dump_rows(now)))
        self.assertEqual(list(compare(compared_of(now), read_compared(os.path.join(DAY, "evening")), False, [])), [])
        self.assertEqual(len(failed), 18)
        self.assertEqual({number: name for number, (is_same, name) in failed.items() if not is_same}, {90: None, 245: "NoAccount"})


class Forms(Simulated):
    """What is told of one transaction, and what is refused."""

    def setUp(self) -> None:
        super().setUp()
        self.values = transactions()

    def refused(self, data: bytes, *words: str, more: tuple[str, ...] = ()) -> None:
        """Checks that bytes are refused with these words, as base64 and as base58."""
        for text in (base64.b64encode(data).decode(), base58_text(data)):
            if len(text) < 60 and text.isalnum():
                continue
            ended = ledger("simulate", "--dex", PROGRAM, "--clock", "5", *more, self.dump, self.save("one.txt", text))
            self.assert_refused(ended, "one.txt", *words)

    def test_all_or_nothing(self) -> None:
        """An order and, behind it, a cancel that is refused: the order is told as taken back, and no account changes."""
        value = copy.deepcopy(self.values[19])
        message = value["transaction"]["message"]
        message["instructions"][1:] = [message["instructions"][2], message["instructions"][1], message["instructions"][2]]
        answer = self.simulate("--clock", "5", self.dump, self.save("one.json", {"transaction": value["transaction"]}))
        self.assertEqual(answer["err"], {"InstructionError": [2, {"Custom": 41}]})
        rows = answer["daisyhook"]["rows"]
        self.assertTrue(rows[0]["reply"].startswith("ok order "))
        self.assertEqual([row["reply"] for row in rows[1:]], ["refused 18 ClientIdNotFound", None])
        self.assertEqual(answer["preTokenBalances"], answer["postTokenBalances"])
        with open(self.dump, "rb") as file:
            morning = read_dump(file.read(), "morning")
        after = with_accounts(morning, answer["accounts"])
        self.assertEqual(list(dump_rows(after)), list(dump_rows(morning)))
        market = message["accountKeys"][message["instructions"][1]["programIdIndex"]]
        self.assertEqual(answer["logs"][-3:], [f"Program {market} invoke [1]", "Program log: CancelOrderByClientIdV2: refused 18 "
                                               "ClientIdNotFound", f"Program {market} failed: custom program error: 0x29"])
        self.assertIn("it fails at instruction 3, and changes nothing", self.told)
        self.assertIn("which is taken back", self.told)
        self.assertIn("instruction 4 NewOrderV3: not tried", self.told)

    def test_a_fill(self) -> None:
        """A take of the day, told in tokens: its fills sum up to what it was answered, and its wallets move by that."""
        value = next(one for one in self.values[:60] if one["transaction"]["message"]["instructions"][-1]["data"].startswith("1")
                     and self.is_fill(one))
        answer = self.simulate("--clock", str(value["blockTime"]), self.dump, self.save("one.json", {"transaction": value["transaction"]}))
        row = answer["daisyhook"]["rows"][-1]
        words = row["reply"].split(" ")
        lots, pc, fee = map(int, words[4:7] if words[1] == "order" else words[2:5])
        self.assertEqual(sum(int(fill["lots"]) for fill in row["fills"]), lots)
        self.assertEqual(sum(int(fill["lots"]) * int(fill["price"]) * 100 for fill in row["fills"]), pc)
        self.assertIn(f"fee {fee / 10**6:f}".rstrip("0"), self.told)
        self.assertIn("  filled in all ", self.told)
        self.assertIn(" before, ", self.told)

    def is_fill(self, value: dict[str, Any]) -> bool:
        """Whether a transaction, tried on the morning, fills something."""
        path = self.save("some.json", {"transaction": value["transaction"]})
        ended = ledger("simulate", "--dex", PROGRAM, "--leave-out-unknown", "--clock", "5", self.dump, path)
        return ended.status == 0 and any(row["fills"] for row in json.loads(ended.out)["daisyhook"]["rows"])

    def test_lengths(self) -> None:
        """A transaction and a message cut anywhere, or with a byte more, are refused."""
        transaction = self.values[0]["transaction"]
        for data in (transaction_of(transaction), message_of(transaction["message"])):
            for length in {1, 2, 40, 66, len(data) // 2, len(data) - 33, len(data) - 1}:
                self.refused(data[:length], "no transaction", "no message", "byte ")
            self.refused(data + b"\0", "no transaction", "no message", "stand behind its end")
        self.refused(b"\xfb" * 1233, "1233 bytes", "1232")

    def test_numbers(self) -> None:
        """Counts, headers, versions and numbers of accounts that cannot be."""
        message = message_of(self.values[0]["transaction"]["message"])
        keys = message[3]
        start = 4 + 32 * keys + 32
        self.refused(b"\x81" + message, "version 1")
        self.refused(bytes([keys + 1]) + message[1:], "a header of")
        self.refused(b"\x01\x01" + message[2:], "a header of")
        self.refused(message[:3] + bytes([keys | 128, 0]) + message[4:], "shortest form")
        self.refused(message[:36] + message[4:36] + message[68:], "stands twice, as 0 and 1")
        self.refused(message[: start + 1] + b"\0" + message[start + 2 :], "its program is account 0")
        self.refused(message[: start + 1] + bytes([keys]) + message[start + 2 :], f"its program is account {keys}")
        self.refused(message[: start + 1] + bytes([1, 1, keys]) + message[start + 3 :], f"names account {keys}")
        self.refused(b"\x02" + bytes(128) + message, "2 signatures, and its message wants 1")
        self.refused(b"\0" + message, "no room for a signature")

    def test_tables(self) -> None:
        """A transaction that looks accounts up, without them, with too few, and one that looks none up."""
        value = next(one for one in self.values if one["version"] == 0)
        data, loaded = transaction_of(value["transaction"]), value["meta"]["loadedAddresses"]
        self.refused(data, "in tables, which nobody gave", "--loaded")
        less = self.save("less.json", {**loaded, "readonly": loaded["readonly"][1:]})
        ended = ledger("simulate", "--dex", PROGRAM, "--clock", "5", "--loaded", less, self.dump,
                       self.save("one.txt", base64.b64encode(data).decode()))
        self.assert_refused(ended, "less.json", "to read")
        bare = {"transaction": value["transaction"]}
        self.assert_refused(ledger("simulate", "--dex", PROGRAM, self.dump, self.save("one.json", bare)), "one.json", "loadedAddresses")
        whole = self.save("loaded.json", loaded)
        told = [self.simulate("--clock", "5", "--loaded", whole, self.dump, self.path(name)) for name in ("one.txt", "one.json")]
        self.assertEqual(told[0]["accounts"], told[1]["accounts"])

    def test_other_programs(self) -> None:
        """An instruction of another program is refused by name, and one on another market too; left out, both are told."""
        for number, name in ((131, "Token (TokenkegQfeZyiNwAJbNbGKPFXCWuBvf9Ss623VQ5DA)"), (130, "on no market of the dump")):
            path = self.save("one.json", {"transaction": self.values[number]["transaction"]})
            self.assert_refused(ledger("simulate", "--dex", PROGRAM, self.dump, path), "one.json", "instruction 2", name)
            answer = self.simulate("--leave-out-unknown", self.dump, path)
            self.assertEqual((answer["err"], [one["instruction"] for one in answer["daisyhook"]["leftOut"]]), (None, ["2"]))
            self.assertIn("left out: instruction 2 of ", self.told)

    def test_words(self) -> None:
        """What is no text, no one transaction, no program and no time."""
        good = base64.b64encode(transaction_of(self.values[0]["transaction"])).decode()
        for text, words in ((good[:-1] + "!", "no base64"), ("", "empty"), (f"{good} {good}", "holds 2 transactions"), ("[[1]]", "no transaction")):
            self.assert_refused(ledger("simulate", "--dex", PROGRAM, self.dump, self.save("one.txt", text)), "one.txt", words)
        path = self.save("one.txt", good)
        self.assert_refused(ledger("simulate", "--dex", self.dump, self.dump, path), "no program")
        self.assert_refused(ledger("simulate", "--dex", "/bin/false", self.dump, path), "status 1")
        self.assert_refused(ledger("simulate", "--clock", "-1", self.dump, path), "--clock")
        self.assert_refused(ledger("simulate", self.path("one.txt"), path), "neither a dump nor a report")

    def test_script(self) -> None:
        """Unsent transactions as a script are the rows of the day."""
        plain = [one for one in self.values if one["meta"]["err"] is None and not one["meta"]["innerInstructions"]][:40]
        loaded = [one for one in plain if one["version"] == 0]
        self.assertEqual(loaded, [])
        texts = "\n".join(base64.b64encode(transaction_of(one["transaction"])).decode() for one in plain)
        recorded = ledger("script", self.dump, self.save("sent.json", plain)).out
        unsent = ledger("script", "--unsent", self.dump, self.save("unsent.txt", texts))
        if unsent.status:
            self.assert_refused(unsent, "blockTime")
        bare = [{"transaction": one["transaction"], "blockTime": one["blockTime"]} for one in plain]
        self.assertEqual(ledger("script", "--unsent", self.dump, self.save("unsent.json", bare)).out, recorded)


class Reasons(unittest.TestCase):
    """The table of reasons."""

    def test_names(self) -> None:
        """Names, numbers and how many values are those of docs/BOOK.md; the error numbers are said here once more."""
        with open(os.path.join(ROOT, "docs", "BOOK.md"), encoding="utf-8") as file:
            told = re.findall(r"^\|\s*(\d+) ([A-Z][A-Za-z]+)\s*\|.*\|\s*([^|]*?)\s*\|$", file.read(), re.M)
        self.assertEqual([(str(reason.number), name) for name, reason in REASONS.items()], [row[:2] for row in told])
        for _, name, values in told:
            self.assertEqual(bool(values), bool(REASONS[name].values), name)
        self.assertEqual({name: reason.error for name, reason in REASONS.items() if reason.error}, {
            "InsufficientFunds": 34, "ClientIdNotFound": 41, "TooManyOpenOrders": 42, "NotOwner": 45, "EventQueueFull": 51,
            "MarketDisabled": 52, "ClientIdZero": 55, "OrderNotFound": 59, "OrderNotYours": 60, "WouldSelfTrade": 61, "TimePast": 63})


if __name__ == "__main__":
    unittest.main()
