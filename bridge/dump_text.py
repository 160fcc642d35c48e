"""The text of dumps and reports: reading it into a snapshot, and writing a snapshot as a dump."""

from __future__ import annotations

import csv
import io
import re
from dataclasses import dataclass, field
from typing import Iterator, Optional

from bridge.encoding import address_of, address_of_dump, base64_bytes, base64_text, dump_word, shown
from bridge.refusals import Refusal
from bridge.snapshot import PARTS, Held, Market, Snapshot, length_fault

_MEND = "give a dump or a report whole, as `dex` printed it"

csv.field_size_limit(2**31 - 1)


@dataclass
class _Reader:
    """A snapshot as its rows come in, and what is declared so far."""

    source: str
    snapshot: Snapshot = field(default_factory=Snapshot)
    declared: set[bytes] = field(default_factory=set)
    markets: dict[bytes, Market] = field(default_factory=dict)
    row: int = 0
    name: str = ""

    def fault(self, what: str, remedy: str = _MEND) -> Refusal:
        """What is wrong with the row that is read."""
        return Refusal(f"{self.source}: line {self.row}{self.name}", what, remedy)

    def address(self, word: str) -> bytes:
        """The address of a word of the row."""
        try:
            return address_of_dump(word)
        except ValueError as fault:
            raise self.fault(f"{word!r} is no address: {fault}") from None

    def data(self, text: str, kind: str) -> bytes:
        """The bytes of an account that the row holds."""
        try:
            data = base64_bytes(text)
        except ValueError as fault:
            raise self.fault(f"its account ({kind}) is no base64: {fault}") from None
        wrong = length_fault(kind, data)
        if wrong:
            raise self.fault(f"its account ({kind}) has a length that is not the layout's: {wrong}")
        return data

    def declare(self, address: bytes) -> None:
        """Takes an address that no row before has."""
        if address in self.declared:
            raise self.fault(f"account {shown(address)} stands twice", "keep one of the two")
        self.declared.add(address)

    def mint(self, fields: list[str]) -> None:
        """A row `mint`."""
        held = Held(self.address(fields[0]), self.data(fields[1], "mint"))
        self.declare(held.address)
        self.snapshot.mints.append(held)

    def wallet(self, fields: list[str]) -> None:
        """A row `wallet`."""
        held = Held(self.address(fields[0]), self.data(fields[1], "wallet"))
        self.declare(held.address)
        self.snapshot.wallets.append(held)

    def discount_mint(self, word: str, said: Optional[bytes], other: Optional[bytes], name: str) -> bytes:
        """The mint that a row `srm` or `msrm` names."""
        if said is not None:
            raise self.fault(f"a second row names {name}", "keep one of the two")
        address = self.address(word)
        if address == other:
            raise self.fault(f"one mint is srm and msrm, {shown(address)}")
        if all(held.address != address for held in self.snapshot.mints):
            raise self.fault(f"no row before it has the mint {shown(address)}")
        return address

    def srm(self, fields: list[str]) -> None:
        """A row `srm`."""
        self.snapshot.srm = self.discount_mint(fields[0], self.snapshot.srm, self.snapshot.msrm, "srm")

    def msrm(self, fields: list[str]) -> None:
        """A row `msrm`."""
        self.snapshot.msrm = self.discount_mint(fields[0], self.snapshot.msrm, self.snapshot.srm, "msrm")

    def market(self, fields: list[str]) -> None:
        """A row `market`."""
        address, authority = self.address(fields[0]), self.address(fields[1])
        parts = {part: self.data(text, part) for part, text in zip(PARTS, fields[3:])}
        market = Market(address, authority, self.data(fields[2], "market"), parts)
        for entry in market.entries():
            self.declare(entry.address)
        self.snapshot.markets.append(market)
        self.markets[address] = market

    def orders(self, fields: list[str]) -> None:
        """A row `orders`."""
        market = self.markets.get(self.address(fields[0]))
        if market is None:
            raise self.fault(f"no row before it has the market {fields[0]}")
        held = Held(self.address(fields[1]), self.data(fields[2], "open_orders"))
        self.declare(held.address)
        market.orders.append(held)


_FIELDS = {"mint": 2, "wallet": 2, "srm": 1, "msrm": 1, "market": 9, "orders": 3}


def _records(reader: _Reader, text: str) -> Iterator[list[str]]:
    """The rows of comma-separated values of a text, of which some fields may stand in quotes; empty lines are none."""
    rows = csv.reader(io.StringIO(text, newline=""))
    start = reader.row
    try:
        for fields in rows:
            if fields:
                reader.name = ""
                yield fields
            reader.row = start + rows.line_num
    except csv.Error as fault:
        raise reader.fault(f"it is no row of comma-separated values ({fault})") from None


def _read_row(reader: _Reader, fields: list[str]) -> None:
    """Reads a row between `dump` and `enddump`."""
    acts = {"mint": reader.mint, "wallet": reader.wallet, "srm": reader.srm, "msrm": reader.msrm,
            "market": reader.market, "orders": reader.orders}
    if _FIELDS.get(fields[0]) != len(fields) - 1:
        raise reader.fault(f"{','.join(fields)[:40]!r} is no row of a dump")
    reader.name = f" ({fields[0]} {fields[2 if fields[0] == 'orders' else 1][:66]})"
    acts[fields[0]](fields[1:])


def _read_rows(reader: _Reader, text: str, behind: list[str]) -> None:
    """Reads the rows of a dump from `dump` to `enddump`, and sees that just these rows stand behind it."""
    records = _records(reader, text)
    if next(records, None) != ["dump"]:
        raise reader.fault("a dump begins with the row `dump`")
    for fields in records:
        if fields == ["enddump"]:
            break
        _read_row(reader, fields)
    else:
        reader.name = ""
        raise reader.fault("the dump is cut short: there is no row `enddump`")
    rest = [fields for _, fields in zip(range(len(behind) + 1), records)]
    if rest != [[word] for word in behind]:
        wanted = f"`{behind[0]}` alone is" if behind else "nothing is"
        raise reader.fault(f"{wanted} wanted behind `enddump`, and other rows stand there", "give a dump or a report whole, and nothing behind it")


_HEAD = re.compile(r"(market|wallet) ([a-z0-9_]{1,24}|0x[0-9a-f]{64}) (0|[1-9][0-9]{0,11})")
_REPORT = re.compile(r"report (0|[1-9][0-9]{0,11})")
_ENTRY = re.compile(r"entry (?:0|[1-9][0-9]?) ([1-9][0-9]*) (?:ok|refused) .+")
_MOVE = re.compile(r"move [a-z0-9_]+ (?:0|[1-9][0-9]?) ([1-9][0-9]*) (?:probe|debit|credit) [0-9]+ [0-9]+")


@dataclass
class _Journals:
    """What the journals of a report say of its accounts: the addresses of its markets and wallets, and the numbers of its rows."""

    names: dict[str, list[str]] = field(default_factory=lambda: {"market": [], "wallet": []})
    rows: set[str] = field(default_factory=set)


def _read_journal(reader: _Reader, lines: Iterator[str], kind: str, count: int) -> set[str]:
    """Reads the lines of a journal; the numbers of their rows."""
    form, word = (_ENTRY, "entry") if kind == "market" else (_MOVE, "move")
    rows = set()
    for number in range(count):
        reader.row += 1
        found = form.fullmatch(next(lines, ""))
        if found is None:
            raise reader.fault(f"a line `{word} ..` is wanted, of which {number} of {count} stand above")
        rows.add(found[1])
    return rows


def _read_journals(reader: _Reader, lines: Iterator[str]) -> _Journals:
    """Reads the journals of a report, up to its dump."""
    journals = _Journals()
    for line in lines:
        reader.row += 1
        head = _HEAD.fullmatch(line)
        if line == "dump":
            return journals
        if head is None or (head[1] == "market" and journals.names["wallet"]):
            raise reader.fault(f"the head of a journal or `dump` is wanted, and here stands {line[:40]!r}")
        journals.names[head[1]].append(head[2])
        rows = _read_journal(reader, lines, head[1], int(head[3]))
        journals.rows |= rows if head[1] == "market" else set()
    raise reader.fault("the report is cut short: it has no row `dump`")


def _check_journals(reader: _Reader, journals: _Journals, rows: int) -> None:
    """Sees that a report's journals are those of its markets and wallets, and as many as its rows."""
    reader.row, reader.name = 1, ""
    for kind, held in (("market", [market.address for market in reader.snapshot.markets]),
                       ("wallet", [wallet.address for wallet in reader.snapshot.wallets])):
        if [address_of(name) for name in journals.names[kind]] != held:
            raise reader.fault(f"the {kind}s that have a journal are not those of the dump, in its order")
    if len(journals.rows) != rows:
        raise reader.fault(f"it tells of {rows} rows, and its markets' journals of {len(journals.rows)}")


def _read_report(reader: _Reader, text: str, rows: int) -> None:
    """Reads a report."""
    lines = iter(text.removesuffix("\n").split("\n"))
    next(lines)
    journals = _read_journals(reader, lines)
    _read_rows(reader, text[text.index("\ndump\n") + 1 :], ["end"])
    _check_journals(reader, journals, rows)


def read_dump(data: bytes, source: str) -> Snapshot:
    """The snapshot that a dump or a report holds."""
    try:
        text = data.removeprefix(b"\xef\xbb\xbf").decode("ascii")
    except UnicodeDecodeError:
        raise Refusal(source, "it has bytes that no dump or report has", "give what `dex` printed") from None
    text = text.replace("\r\n", "\n").replace("\r", "\n")
    reader = _Reader(source, row=1)
    first = text.lstrip("\n").split("\n", 1)[0]
    report = _REPORT.fullmatch(first)
    if report is not None:
        _read_report(reader, text, int(report[1]))
    elif next(csv.reader([first]), None) == ["dump"]:
        _read_rows(reader, text, [])
    else:
        what = "it is empty" if first == "" else f"it is neither a dump nor a report: it begins with {first[:60]!r}"
        raise Refusal(source, what, "give what `dex dump`, `dex replay` or `ledger dump` printed")
    return reader.snapshot


def _market_rows(market: Market) -> Iterator[str]:
    """The rows of a market and of its open-orders accounts."""
    name = dump_word(market.address)
    texts = [base64_text(market.data)] + [base64_text(market.parts[part]) for part in PARTS]
    yield ",".join(["market", name, dump_word(market.authority)] + texts)
    for held in market.orders:
        yield f"orders,{name},{dump_word(held.address)},{base64_text(held.data)}"


def dump_rows(snapshot: Snapshot) -> Iterator[str]:
    """The rows of a dump, each without its line end."""
    yield "dump"
    for held in snapshot.mints:
        yield f"mint,{dump_word(held.address)},{base64_text(held.data)}"
    for name, mint in (("srm", snapshot.srm), ("msrm", snapshot.msrm)):
        if mint is not None:
            yield f"{name},{dump_word(mint)}"
    for held in snapshot.wallets:
        yield f"wallet,{dump_word(held.address)},{base64_text(held.data)}"
    for market in snapshot.markets:
        yield from _market_rows(market)
    yield "enddump"
