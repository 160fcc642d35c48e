"""Mutated dumps, reports, accounts and transactions for the ledger bridge, each with what has to come out."""

from __future__ import annotations

import csv
import glob
import io
import json
import os
import random
import re
import subprocess
from typing import Any, Optional

import changes
from support import OPENBOOK, PROGRAM, ROOT, Ended, ledger, listed_accounts, text_of, words_for

from bridge.dump_text import read_dump
from bridge.encoding import base58_text
from bridge.snapshot import PARTS

DAY = os.path.join(ROOT, "examples", "ledger")
DIGITS = "123456789ABCDEFGHJKLMNPQRSTUVWXYZabcdefghijkmnopqrstuvwxyz"


def dex(words: str, text: str) -> str:
    """What the exchange's program writes for a text."""
    given = text.encode("utf-8", "surrogateescape")
    return subprocess.run([PROGRAM, *words.split()], input=given, capture_output=True, check=False).stdout.decode()


def odd(told: Ended) -> Optional[str]:
    """What is wrong with how a run ended, whatever it was given."""
    if told.status not in (0, 1, 2):
        return f"status {told.status}"
    if told.status == 2 and (told.out != "" or told.err.count("\n") != 1):
        return f"a refusal that is no line: {told.err[:200]!r}"
    return None


def text_fault(audit: str) -> Optional[bool]:
    """Whether the program refuses a text because of its rows or lengths; none where it refuses it because of what accounts say."""
    found = re.match(r"dump refused row [0-9]+: ([0-9]+) ", audit)
    return False if found is None else True if found[1] in "12" else None


def address(word: str) -> str:
    """The digits of an address word."""
    return word[2:] if re.fullmatch("0x[0-9a-f]{64}", word) else word.encode().hex().ljust(64, "0")


def meant(text: str) -> list[list[str]]:
    """The rows of a dump as they are meant, in an order of their own."""
    named = {"market": 2, "orders": 2, "mint": 1, "wallet": 1, "srm": 1, "msrm": 1}
    rows = list(filter(None, csv.reader(io.StringIO(text.removeprefix("\ufeff"), newline=""))))
    start = next(at for at, row in enumerate(rows) if row == ["dump"])
    return sorted([row[0], *map(address, row[1 : 1 + named.get(row[0], 0)]), *row[1 + named.get(row[0], 0) :]] for row in rows[start:] if row != ["end"])


class Inputs:
    """What is mutated, and a folder for it."""

    def __init__(self, folder: str) -> None:
        self.folder = folder
        csv.field_size_limit(2**31 - 1)
        self.reports = [self.read(os.path.join(ROOT, name)) for name in
                        ("examples/two_traders.report", "tests/data/swaps.report", "examples/discount_and_referrer.report")]
        self.dumps = [text[text.index("\ndump\n") + 1 : -len("end\n")] for text in self.reports]
        self.snapshots = [read_dump(text.encode(), "dump") for text in self.dumps]
        self.accounts = [listed_accounts(snapshot) for snapshot in self.snapshots]
        self.day = [value for path in sorted(glob.glob(os.path.join(DAY, "transactions", "*.json"))) for value in json.loads(self.read(path))]
        morning = ledger("dump", "--market", "66U5PsWRGHXAyG4kEQHBSdJH9BXhC1c2DLuNjH6mYpcq", "--authority", "5DXit8wTMu8cmUAYXwpreyz2ManLkZm7BiEHZaYekdjL",
                         "--srm", "FfsnSwpeYAwKMouj31Gsdo8DAo15PcAzN9uXxpZaFHKv", os.path.join(DAY, "morning")).out
        self.morning = self.save("morning.dump", dex("migrate 300 300", morning))
        market = read_dump(self.read(self.morning).encode(), "morning").markets[0]
        self.own = {base58_text(one) for one in (market.address, *map(market.part_address, PARTS))}

    def read(self, path: str) -> str:
        """A file's text."""
        with open(path, encoding="ascii", newline="") as file:
            return file.read()

    def save(self, name: str, text: str) -> str:
        """Saves a text, and answers its path."""
        path = os.path.join(self.folder, name)
        with open(path, "w", encoding="utf-8", errors="surrogatepass", newline="") as file:
            file.write(text)
        return path

    def try_dump(self, draw: random.Random) -> Optional[str]:
        """A dump: what the program takes is taken, what it refuses as a text is refused, and a comparison tells whether it means the same."""
        base = draw.choice(self.dumps)
        text = draw.choice(changes.OF_DUMPS)(draw, base)
        told = ledger("compare", "--bytes", self.save("base.dump", base), self.save("given.dump", text))
        fault = text_fault(dex("audit", text))
        if told.status == 2 and fault is False:
            return f"refused, and the program takes it: {told.err[:200]}"
        if told.status != 2 and fault is True:
            return f"taken, and the program refuses it: {dex('audit', text)[:100]}"
        if told.status != 2 and (told.status == 0) != (meant(text) == meant(base)):
            return f"the comparison ended with {told.status}"
        return odd(told)

    def try_report(self, draw: random.Random) -> Optional[str]:
        """A report with another line in its journals, or cut, or with more behind it, is refused."""
        base = draw.choice(self.reports)
        front, start, back = base.partition("\ndump\n")
        way = draw.randrange(4)
        text = changes.cut(draw, base) if way == 0 else changes.more_behind(draw, base) if way == 1 else (
            changes.other_lines(draw, front) + start + back if way == 2 else "report 0" + start + back)
        told = ledger("compare", self.save("base.report", base), self.save("given.report", text))
        lines, others = front.split("\n"), text.partition("\ndump\n")[0].split("\n")
        is_same = way == 2 and (len(lines) == len(others) and sorted(lines) == sorted(others) or text == base)
        if told.status != 2 and not is_same:
            return f"a report that is none ended with {told.status}"
        return odd(told)

    def try_accounts(self, draw: random.Random) -> Optional[str]:
        """Accounts: a dump of them is one that the program reads, and a comparison tells whether an account is another."""
        number = draw.randrange(len(self.accounts))
        base = self.accounts[number]
        value = changes.copied(base)
        way = draw.randrange(4)
        if way == 0:
            one = draw.choice(value)["account"]
            one["data"][0] = changes.base64.b64encode(changes.other_bytes(draw, changes.base64.b64decode(one["data"][0]))).decode()
        elif way == 1:
            draw.shuffle(value)
        else:
            changes.other_member(draw, value)
        text = json.dumps(value) if way < 3 else changes.key_twice(draw, json.dumps(base))
        path = self.save("given.json", text)
        made = ledger("dump", *words_for(self.snapshots[number]), path)
        if made.status == 0 and text_fault(dex("audit", made.out)) is True:
            return f"a dump that the program refuses: {dex('audit', made.out)[:100]}"
        told = ledger("compare", "--bytes", self.save("base.json", json.dumps(base)), path)
        if way == 3 and (made.status, told.status) != (2, 2):
            return "a key twice is taken"
        found, wanted = plain(value), plain(base)
        if told.status != 2 and way != 3 and found is not None and (told.status == 0) != (found == wanted):
            return f"the comparison ended with {told.status}"
        return odd(made) or odd(told)

    def try_day(self, draw: random.Random) -> Optional[str]:
        """Transactions: those that lie are refused, and the rows are those of a count of the fuzzer's own."""
        start = draw.randrange(len(self.day) - 4)
        base = changes.copied(self.day[start : start + draw.randrange(1, 5)])
        way = draw.randrange(8)
        value = base if way == 0 else lied(draw, base) if way < 5 else base
        if way in (5, 6):
            changes.other_member(draw, value)
        text = json.dumps(value) if way < 7 else changes.key_twice(draw, json.dumps(value))
        told = ledger("script", "--no-swaps", self.morning, self.save("given.json", text))
        if told.status == 0:
            return (way == 7 and "a key twice is taken") or self.wrong_rows(told, value)
        return odd(told)

    def wrong_rows(self, told: Ended, value: Any) -> Optional[str]:
        """What is wrong with a script and its table for transactions, if anything."""
        if not isinstance(value, list):
            value = [value]
        value = [one.get("result", one) for one in value]
        for one in value:
            why = lie_of(one)
            if why is not None:
                return f"a transaction that lies is taken: {why}"
        wanted = [(one["transaction"]["signatures"][0], number) for one in value for number in self.calls_of(one)]
        lines = [line.split(" ") for line in told.err.splitlines()]
        found = [(line[3], line[4]) for line in lines if line[0] == "row" and line[-1] != "made"]
        if found != wanted:
            return f"rows of {found}, and wanted are {wanted}"
        names = {one["transaction"]["signatures"][0] for one in value}
        if not all(name in {line[2] for line in lines[1:]} | {line[3] for line in lines[1:] if len(line) > 3} for name in names):
            return "a transaction is in no line of the table"
        replayed = dex("replay", told.out)
        return None if replayed.startswith("report ") else f"a script that the program refuses: {replayed[:100]}"

    def calls_of(self, one: Any) -> list[str]:
        """The numbers of the calls of the market's program that name an account of the market, of a transaction that did not fail."""
        if one["meta"]["err"] is not None:
            return []
        message = one["transaction"]["message"]
        loaded = one["meta"].get("loadedAddresses") or {"writable": [], "readonly": []}
        keys = [*message["accountKeys"], *loaded["writable"], *loaded["readonly"]]
        inner = {group["index"]: group["instructions"] for group in one["meta"].get("innerInstructions") or []}
        calls = [(number, call) for place, outer in enumerate(message["instructions"], 1)
                 for number, call in [(str(place), outer), *((f"{place}.{at}", call) for at, call in enumerate(inner.get(place - 1, []), 1))]]
        program = base58_text(OPENBOOK)
        return [number for number, call in calls if keys[call["programIdIndex"]] == program and {keys[at] for at in call["accounts"]} & self.own]


def plain(value: Any) -> Optional[dict[str, str]]:
    """The bytes of accounts by their addresses, where each has the plain form and stands once; else nothing."""
    try:
        found = {one["pubkey"]: one["account"]["data"][0] for one in value if one["account"]["data"][1] == "base64" and one["account"]["owner"]}
    except (KeyError, TypeError, IndexError):
        return None
    return found if len(found) == len(value) and all(isinstance(name, str) for name in found) else None


def bytes_of(word: Any) -> int:
    """How many bytes base58 stands for; 0 where it is none."""
    if not isinstance(word, str) or not word or len(word) > 90 or any(sign not in DIGITS for sign in word):
        return 0
    number = 0
    for sign in word:
        number = number * 58 + DIGITS.index(sign)
    return len(word) - len(word.lstrip("1")) + (number.bit_length() + 7) // 8


def lie_of(one: Any) -> Optional[str]:
    """What a transaction says that cannot be, if anything."""
    message, meta = one["transaction"]["message"], one["meta"]
    wanted, signatures = message["header"]["numRequiredSignatures"], one["transaction"]["signatures"]
    loaded = meta.get("loadedAddresses") or {"writable": [], "readonly": []}
    keys = [*message["accountKeys"], *loaded["writable"], *loaded["readonly"]]
    fault = meta["err"]
    # Of a transaction that failed no call is read.
    groups = [group["index"] for group in meta.get("innerInstructions") or []] if fault is None else []
    lies = {
        "signatures": len(signatures) != wanted or not 1 <= wanted <= len(message["accountKeys"]),
        "a signature": any(bytes_of(signature) != 64 for signature in signatures),
        "an account twice": len(set(keys)) != len(keys),
        "inner calls twice": len(set(groups)) != len(groups),
        "err": fault is not None and not (isinstance(fault, (dict, str)) and fault),
        "slot": not 0 <= one["slot"] < 2**64,
    }
    return next((name for name, is_told in lies.items() if is_told), None)


def lied(draw: random.Random, day: list[Any]) -> list[Any]:
    """Transactions of which one says something else."""
    one = draw.choice(day)
    message, meta = one["transaction"]["message"], one["meta"]
    signatures, keys = one["transaction"]["signatures"], message["accountKeys"]
    groups = meta.setdefault("innerInstructions", [])
    calls = [call for call in [*message["instructions"], *(call for group in groups for call in group["instructions"])] if call["accounts"]]
    accounts = draw.choice(calls)["accounts"] if calls else []
    place = draw.randrange(len(accounts) + 1)
    loaded = meta.get("loadedAddresses")
    ways = (
        lambda: signatures.append(signatures[0]), lambda: signatures.clear(), lambda: signatures.insert(0, signatures[0] + "\nrow 9 1 x 1 NewOrderV3"),
        lambda: signatures.__setitem__(0, signatures[0][:-1]), lambda: signatures.__setitem__(0, "\ud800"),
        lambda: message["header"].update(numRequiredSignatures=draw.choice((0, 2, len(keys), len(keys) + 1))),
        lambda: meta.update(err=draw.choice((False, True, "", {}, [], 0))), lambda: meta.update(status={"Err": {"a": 1}} if meta["err"] is None else {"Ok": None}),
        lambda: meta.update(innerInstructions=groups * 2), lambda: keys.append(keys[0]), lambda: keys.reverse(),
        lambda: meta.update(loadedAddresses={"writable": [keys.pop() for _ in range(min(draw.randrange(1, 4), len(keys)))], "readonly": []}),
        lambda: loaded and loaded["writable"].reverse(), lambda: loaded and meta.update(loadedAddresses={"writable": loaded["readonly"], "readonly": loaded["writable"]}),
        lambda: accounts.insert(place, draw.randrange(len(keys))), lambda: accounts.insert(place, draw.randrange(len(keys))),
        lambda: accounts.reverse(), lambda: accounts and accounts.pop(), lambda: draw.shuffle(accounts), lambda: accounts.append(0),
        lambda: one.update(slot=draw.choice((-1, 2**64, 0))), lambda: day.append(one),
    )
    draw.choice(ways)()
    return day
