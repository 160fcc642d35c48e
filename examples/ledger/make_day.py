#!/usr/bin/env python3
"""Makes the recorded day of this folder: a market's accounts of a morning and of an evening, and the transactions between them,
as a ledger's tools print them. No ledger was asked: addresses are hashes of names, orders are drawn, and what the ledger would have
answered is what PROGRAM says. Words: make_day.py PROGRAM FOLDER, where PROGRAM knows the command `replay`, as `dex` does."""

from __future__ import annotations

import hashlib
import json
import os
import random
import subprocess
import sys
from dataclasses import dataclass, field
from typing import Any, Iterable, Optional

sys.dont_write_bytecode = True
sys.path.insert(0, os.path.join(os.path.dirname(os.path.abspath(__file__)), "..", ".."))

from bridge.dump_text import dump_rows, read_dump  # noqa: E402
from bridge.encoding import base58_text, base64_text, dump_word  # noqa: E402
from bridge.layouts import number_at  # noqa: E402
from bridge.sides import Side, orders_of  # noqa: E402
from bridge.snapshot import PARTS, VAULTS, Held, Market, Snapshot, is_blank, is_closed  # noqa: E402
from bridge.tables import INSTRUCTIONS, LAYOUTS, PROGRAMS, RENT, TOKEN_PROGRAM, rent_exempt  # noqa: E402

NODES, EVENTS, TRADERS = 909, 2978, 10
COIN_LOT, PC_LOT, PRICE = 100_000_000, 100, 20_000
NIGHT, DAY, FILE_HOLDS = 120, 260, 50
SLOT, TIME = 251_000_000, 1_709_280_000
DECIMALS = {"coin": 9, "pc": 6, "srm": 6}
PROGRAM = PROGRAMS["openbook"]
# What addresses and signatures are hashes of, beside their names. Another example (examples/month) makes its markets by other names.
OF = "recorded day"


def address(name: str) -> bytes:
    """The address that a name stands for in this example."""
    return hashlib.sha256(f"{OF}: {name}".encode()).digest()


def filled(layout: str, length: int, values: dict[str, Any]) -> bytes:
    """An account of so many bytes with the values of its fields; all else is zero."""
    data = bytearray(length)
    for part in LAYOUTS[layout]:
        value = values.get(part.name)
        if value is not None:
            data[part.place : part.place + part.length] = value.to_bytes(part.length, "little") if isinstance(value, int) else value
    return bytes(data)


def of_program(layout: str, length: int, flags: int, values: dict[str, Any]) -> bytes:
    """An account of the program, with the texts at both ends."""
    data = filled(layout, length, {"serum": b"serum", "account_flags": flags, **values})
    return data[:-7] + b"padding"


def wallet(mint: str, owner: bytes, amount: int) -> bytes:
    """A token account."""
    return filled("token_account", 165, {"mint": address(mint), "owner": owner, "amount": amount, "state": 1})


def trader_wallets(trader: int) -> list[Held]:
    """A trader's wallets; the first two hold SRM."""
    owner = address(f"trader {trader}")
    held = [Held(address(f"coin wallet {trader}"), wallet("coin", owner, 2_000_000 * COIN_LOT)),
            Held(address(f"pc wallet {trader}"), wallet("pc", owner, 2_000_000 * PC_LOT * PRICE))]
    if trader < 2:
        held.append(Held(address(f"srm wallet {trader}"), wallet("srm", owner, 10 ** (8 + 2 * trader))))
    return held


def fresh_market() -> Market:
    """The market before its first order, with an open-orders account for every trader but the last."""
    words: dict[str, Any] = {part: address(part) for part in PARTS}
    words.update(own_address=address("market"), vault_signer_nonce=1, coin_mint=address("coin"), pc_mint=address("pc"),
                 coin_lot_size=COIN_LOT, pc_lot_size=PC_LOT, pc_dust_threshold=100)
    parts = {name: wallet(name.split("_", maxsplit=1)[0], address("vault signer"), 0) for name in VAULTS}
    parts["req_q"] = of_program("request_queue", 5132, 9, {})
    parts["event_q"] = of_program("event_queue", 262156, 17, {})
    parts["bids"], parts["asks"] = (of_program("slab", 65548, flags, {}) for flags in (33, 65))
    orders = [Held(address(f"open orders {trader}"), bytes(3228)) for trader in range(TRADERS - 1)]
    return Market(address("market"), address("authority"), of_program("market", 388, 3, words), parts, orders)


def fresh() -> Snapshot:
    """All accounts before the first order. Wallets that no file shows hold more of every mint."""
    wallets = [held for trader in range(TRADERS) for held in trader_wallets(trader)]
    wallets.append(Held(address("referrer"), wallet("pc", address("referrer's owner"), 0)))
    wallets.append(Held(address("fees"), wallet("pc", address("authority"), 0)))
    wallets += [Held(address(f"all others {name}"), wallet(name, address("all others"), 10**15)) for name in DECIMALS]
    mints = []
    for name, decimals in DECIMALS.items():
        supply = sum(number_at("token_account", "amount", held.data) for held in wallets if held.data[:32] == address(name))
        mints.append(Held(address(name), filled("mint", 82, {"supply": supply, "decimals": decimals, "is_initialized": 1})))
    return Snapshot(mints, address("srm"), None, wallets, [fresh_market()])


@dataclass
class Step:
    """An instruction: its tag and body, its signer, what it names, and the wallets of its roles."""

    tag: int
    body: bytes
    signer: bytes
    named: list[bytes]
    wallets: dict[str, bytes] = field(default_factory=dict)

    def data(self) -> bytes:
        """The data of the instruction."""
        return bytes([0]) + self.tag.to_bytes(4, "little") + self.body

    def row(self) -> str:
        """The row of a script, as this example knows it without looking at any transaction."""
        roles = [dump_word(self.wallets[role]) if role in self.wallets else "-" for role in ("coin", "pc", "discount", "referrer")]
        named = " ".join(map(dump_word, self.named)) or "-"
        return ",".join(["ix", "0", dump_word(address("market")), dump_word(self.signer), named, *roles, base64_text(self.data())])


def numbers(*pairs: tuple[int, int]) -> bytes:
    """Numbers with their lengths, one behind the other."""
    return b"".join(value.to_bytes(length, "little") for value, length in pairs)


class Drawn:
    """What traders do, drawn from a number."""

    def __init__(self, number: int = 20240301) -> None:
        self.random = random.Random(number)
        self.client = 0
        self.time = TIME

    def trader(self) -> int:
        """A trader that has an account from the first day on."""
        return self.random.randrange(TRADERS - 1)

    def new_order(self, trader: int) -> Step:
        """A new order near the middle: mostly limit orders, some with a latest time, some with a discount wallet."""
        draw = self.random
        side, kind, lots = draw.randrange(2), draw.choice([0, 0, 0, 0, 1, 2]), draw.randrange(1, 60)
        price = PRICE + draw.randrange(-40, 41) + (15 if side else -15)
        self.client += 1
        body = numbers((side, 4), (price, 8), (lots, 8), (lots * price * PC_LOT * 102 // 100, 8), (draw.randrange(2), 4), (kind, 4),
                       (self.client, 8), (20, 2))
        if draw.randrange(4) == 0:
            body += numbers((self.time + draw.choice([60, 600, 3600]), 8))
        name = ("pc", "coin")[side]
        wallets = {name: address(f"{name} wallet {trader}")}
        if trader < 2 and draw.randrange(2):
            wallets["discount"] = address(f"srm wallet {trader}")
        return Step(10, body, address(f"trader {trader}"), [address(f"open orders {trader}")], wallets)

    def take(self, trader: int) -> Step:
        """A take, which uses no account of the market."""
        side, lots = self.random.randrange(2), self.random.randrange(1, 30)
        price = PRICE + (-400 if side else 400)
        body = numbers((side, 4), (price, 8), (lots, 8), (lots * price * PC_LOT * 2, 8), (0, 8), (0, 8), (20, 2))
        wallets = {name: address(f"{name} wallet {trader}") for name in ("coin", "pc")}
        return Step(13, body, address(f"trader {trader}"), [], wallets)

    def of_account(self, tag: int, trader: int, body: bytes = b"") -> Step:
        """An instruction of a trader's account without wallets."""
        return Step(tag, body, address(f"trader {trader}"), [address(f"open orders {trader}")])

    def cancel(self, trader: int) -> Step:
        """A cancel by one client id or by several."""
        clients = [self.random.randrange(max(1, self.client - 40), self.client + 2) for _ in range(8)]
        if self.random.randrange(2):
            return self.of_account(12, trader, numbers((clients[0], 8)))
        return self.of_account(18, trader, numbers(*((client, 8) for client in clients)))

    def settle(self, trader: int) -> Step:
        """A settling, sometimes with a referrer."""
        step = self.of_account(5, trader)
        step.wallets = {name: address(f"{name} wallet {trader}") for name in ("coin", "pc")}
        if self.random.randrange(3) == 0:
            step.wallets["referrer"] = address("referrer")
        return step

    def consume(self, limit: int = 60) -> Step:
        """A crank over all traders' accounts."""
        named = [address(f"open orders {trader}") for trader in range(TRADERS)]
        return Step(3, numbers((limit, 2)), address("cranker"), named)

    def some(self) -> list[Step]:
        """The instructions of one drawn transaction."""
        kind, trader = self.random.randrange(20), self.trader()
        if kind < 10:
            return [self.new_order(trader)]
        if kind < 12:
            return [self.cancel(trader), self.new_order(trader)]
        if kind < 14:
            return [self.cancel(trader)]
        if kind < 16:
            return [self.settle(trader)]
        return [self.take(trader)] if kind == 16 else [self.consume()]


@dataclass
class Sent:
    """A transaction before it is written: its instructions, how it is wrapped, and whether the ledger refused it."""

    steps: list[Step]
    form: str = "plain"
    failed: bool = False
    time: int = TIME


def night(drawn: Drawn) -> list[Sent]:
    """What happened before the morning: accounts are opened, and some orders rest."""
    opened = [Sent([drawn.of_account(15, trader)]) for trader in range(TRADERS - 1)]
    return opened + [Sent(drawn.some()) for _ in range(NIGHT)]


def cancels_by_id(morning: Market) -> list[Sent]:
    """Cancels of the morning's lowest bid and highest ask by their ids, each by its trader."""
    traders = {address(f"open orders {trader}"): address(f"trader {trader}") for trader in range(TRADERS)}
    sent = []
    for side, name, place in ((0, "bids", 0), (1, "asks", -1)):
        order = orders_of(Side(morning.parts[name]))[place]
        sent.append(Sent([Step(11, numbers((side, 4), (order.id, 16)), traders[order.owner], [order.owner])]))
    return sent


def special(drawn: Drawn, morning: Market) -> dict[int, Sent]:
    """Transactions that a day has once or twice, by their numbers."""
    last, authority = TRADERS - 1, address("authority")
    bid, ask = cancels_by_id(morning)
    new = drawn.of_account(15, last)
    sweep = Step(8, b"", authority, [], {"pc": address("fees")})
    prune = Step(16, numbers((3, 2)), authority, [address("open orders 3")])
    cancels = drawn.of_account(18, last, numbers(*((client, 8) for client in range(9001, 9009))))
    return {
        2: bid, 3: ask,
        20: Sent([new, drawn.new_order(last)], "opens"), 60: Sent([drawn.take(4)], "called"), 61: Sent([drawn.consume()], "loaded"),
        90: Sent([drawn.new_order(2)], "failed elsewhere"), 100: Sent([prune]), 101: Sent([drawn.consume()], "loaded"),
        120: Sent([sweep]), 130: Sent([], "other market"), 131: Sent([], "nothing of it"), 140: Sent([drawn.take(5)], "called"),
        150: Sent([Step(2, numbers((5, 2)), address("cranker"), [])]), 200: Sent([drawn.settle(last)], "called"),
        230: Sent([Step(16, numbers((100, 2)), authority, [address("open orders 8")])]), 231: Sent([drawn.consume(2000)], "loaded"),
        232: Sent([drawn.settle(8), drawn.of_account(14, 8)]), 240: Sent([cancels]),
    }


def day(drawn: Drawn, morning: Market) -> list[Sent]:
    """The transactions of the day, with their times."""
    once = special(drawn, morning)
    sent = []
    for number in range(DAY):
        drawn.time += drawn.random.randrange(5, 300)
        transaction = once.get(number) or Sent(drawn.some())
        transaction.time = drawn.time
        transaction.failed = transaction.form == "failed elsewhere"
        sent.append(transaction)
    return sent


def replayed(program: str, start: Snapshot, sent: list[Sent]) -> tuple[list[str], Snapshot]:
    """The replies and the accounts that the program leaves behind the transactions that did not fail."""
    rows, clock = [*dump_rows(start), "program,openbook"], 0
    for transaction in sent:
        if not transaction.failed and transaction.time != clock:
            clock = transaction.time
            rows.append(f"clock,{clock}")
        rows += [] if transaction.failed else [step.row() for step in transaction.steps]
    done = subprocess.run([program, "replay"], input="\n".join(rows).encode() + b"\n", capture_output=True, check=True)
    replies = [line for line in done.stdout.decode().splitlines() if line.startswith("entry ")]
    return replies, read_dump(done.stdout, program)


def first_refused(sent: list[Sent], replies: list[str]) -> Optional[Sent]:
    """The first transaction with an instruction that was refused."""
    place = 0
    for transaction in sent:
        count = 0 if transaction.failed else len(transaction.steps)
        if any(reply.split()[3] == "refused" for reply in replies[place : place + count]):
            return transaction
        place += count
    return None


def played(program: str, start: Snapshot, sent: list[Sent]) -> Snapshot:
    """The accounts behind the transactions; those with a refused instruction fail whole, as on a ledger."""
    while True:
        replies, end = replayed(program, start, sent)
        refused = first_refused(sent, replies)
        if refused is None:
            return end
        refused.failed = True


def accounts_of(step: Step) -> list[bytes]:
    """The accounts of an instruction, each at its place."""
    roles = {part: address(part) for part in PARTS}
    roles.update({"market": address("market"), "signer": step.signer, "vault_signer": address("vault signer"),
                  "token_program": TOKEN_PROGRAM, "rent": address("rent"), "coin_fee_account": address("coin fee account"),
                  "pc_fee_account": address("pc fee account"), "destination": step.signer, "owner": address("trader 3")})
    roles.update(step.wallets)
    if step.named:
        roles["orders"] = step.named[0]
    if step.tag == 10:
        roles["payer"] = step.wallets["coin"] if any(step.body[:4]) else step.wallets["pc"]
    instruction = INSTRUCTIONS[step.tag]
    places = [roles[place] for place in instruction.places or ()]
    if instruction.optional in step.wallets:
        places.append(step.wallets[instruction.optional or ""])
    return (step.named if instruction.named_in_front else []) + places


@dataclass
class Written:
    """A transaction's accounts by number, and its instructions and inner calls."""

    keys: list[bytes]
    loaded: list[bytes] = field(default_factory=list)
    outer: list[dict[str, Any]] = field(default_factory=list)
    inner: list[dict[str, Any]] = field(default_factory=list)

    def number(self, key: bytes) -> int:
        """The number of an account, which is added where it is not there yet."""
        known = self.keys + self.loaded
        if key not in known:
            self.keys.append(key)
            known = self.keys
        return known.index(key)

    def call(self, program: bytes, accounts: Iterable[bytes], data: bytes) -> dict[str, Any]:
        """A call as JSON."""
        numbers_ = [self.number(account) for account in accounts]
        return {"programIdIndex": self.number(program), "accounts": numbers_, "data": base58_text(data), "stackHeight": None}


def write_steps(written: Written, sent: Sent) -> None:
    """Writes the instructions of a transaction in its form."""
    router, budget = address("router program"), address("compute budget program")
    written.outer.append(written.call(budget, [], bytes([2, 64, 13, 3, 0])))
    if sent.form == "other market":
        accounts = [address("market two"), address("event queue two"), address("coin fee account"), address("pc fee account")]
        written.outer.append(written.call(PROGRAM, accounts, bytes([0, 3, 0, 0, 0, 9, 0])))
    if sent.form == "nothing of it":
        written.outer.append(written.call(TOKEN_PROGRAM, [address("pc wallet 1"), address("pc wallet 2")], b"\x03" + bytes(8)))
    if sent.form == "opens":
        written.outer.append(written.call(bytes(32), [sent.steps[0].signer, sent.steps[0].named[0]], bytes(52)))
    for step in sent.steps:
        accounts = accounts_of(step)
        if sent.form == "called":
            written.outer.append(written.call(router, [PROGRAM, *accounts], b"\x09swap"))
            calls = [written.call(PROGRAM, accounts, step.data())]
        else:
            written.outer.append(written.call(PROGRAM, accounts, step.data()))
            calls = [written.call(TOKEN_PROGRAM, accounts[3:6], b"\x03" + bytes(8))] if step.tag == 5 else []
        if calls:
            written.inner.append({"index": len(written.outer) - 1, "instructions": calls})


def transaction_json(sent: Sent, number: int) -> dict[str, Any]:
    """A transaction as a node answers it."""
    signers = list(dict.fromkeys(step.signer for step in sent.steps)) or [address("trader 1")]
    is_loaded = sent.form == "loaded"
    written = Written(list(signers), [key for step in sent.steps for key in accounts_of(step)] if is_loaded else [])
    written.loaded = list(dict.fromkeys(key for key in written.loaded if key not in signers))
    if is_loaded:
        written.keys += [address("compute budget program"), PROGRAM]
    write_steps(written, sent)
    message: dict[str, Any] = {
        "header": {"numRequiredSignatures": len(signers), "numReadonlySignedAccounts": 0, "numReadonlyUnsignedAccounts": 2},
        "accountKeys": [base58_text(key) for key in written.keys], "recentBlockhash": base58_text(address(f"block {number}")),
        "instructions": written.outer}
    error = {"InstructionError": [1, {"Custom": 41}]} if sent.failed else None
    meta = {"err": error, "fee": 5000 * len(signers), "innerInstructions": [] if sent.failed else written.inner}
    if is_loaded:
        half = len(written.loaded) - 2
        message["addressTableLookups"] = [{"accountKey": base58_text(address("table")), "writableIndexes": list(range(half)),
                                           "readonlyIndexes": [half, half + 1]}]
        meta["loadedAddresses"] = {"writable": [base58_text(key) for key in written.loaded[:half]],
                                   "readonly": [base58_text(key) for key in written.loaded[half:]]}
    signature = base58_text(hashlib.sha512(f"{OF}: transaction {number}".encode()).digest())
    return {"slot": SLOT + (sent.time - TIME) * 2, "blockTime": sent.time, "version": 0 if is_loaded else "legacy", "meta": meta,
            "transaction": {"signatures": [signature, *("1" * 64 for _ in signers[1:])], "message": message}}


def account_value(owner: bytes, data: bytes, encoding: str = "base64") -> dict[str, Any]:
    """An account as a node answers it."""
    text = base64_text(data) if encoding == "base64" else base58_text(data)
    return {"data": [text, encoding], "executable": False, "lamports": rent_exempt(len(data)), "owner": base58_text(owner),
            "rentEpoch": RENT["epoch"], "space": len(data)}


def answer(value: Any) -> dict[str, Any]:
    """A node's answer with its context."""
    return {"jsonrpc": "2.0", "result": {"context": {"apiVersion": "2.0.1", "slot": SLOT}, "value": value}, "id": 1}


def save(path: str, value: Any, addresses: Optional[list[bytes]] = None) -> None:
    """Saves an answer, and the addresses of its request beside it."""
    with open(path + ".json", "w", encoding="ascii") as file:
        parts = [json.dumps(part, separators=(",", ":")) for part in value] if isinstance(value, list) else []
        file.write("[\n" + ",\n".join(parts) + "\n]\n" if parts else json.dumps(value, separators=(",", ":")) + "\n")
    if addresses is not None:
        with open(path + ".addresses", "w", encoding="ascii") as file:
            file.write("".join(base58_text(each) + "\n" for each in addresses))


def save_accounts(snapshot: Snapshot, folder: str) -> None:
    """Saves the accounts as somebody gets them from a node, in a file for each request."""
    os.makedirs(folder)
    market, mints = snapshot.markets[0], {held.address: held.data for held in snapshot.mints}
    save(f"{folder}/market", {"pubkey": base58_text(market.address), "account": account_value(PROGRAM, market.data)})
    own = [name for name in PARTS if name not in VAULTS]
    save(f"{folder}/queues_and_sides", answer([account_value(PROGRAM, market.parts[name]) for name in own]), [address(name) for name in own])
    values = [account_value(TOKEN_PROGRAM, market.parts[name]) for name in VAULTS]
    values += [account_value(TOKEN_PROGRAM, mints[address(name)], "base58") for name in ("coin", "pc")]
    save(f"{folder}/vaults_and_mints", answer(values), [address(name) for name in (*VAULTS, "coin", "pc")])
    save(f"{folder}/srm_mint", answer(account_value(TOKEN_PROGRAM, mints[address("srm")])), [address("srm")])
    orders = [held for held in market.orders if not is_blank(held.data) and not is_closed(held.data)]
    save(f"{folder}/open_orders", {"jsonrpc": "2.0", "id": 1, "result": [
        {"pubkey": base58_text(held.address), "account": account_value(PROGRAM, held.data)} for held in orders]})
    hidden = {address(f"all others {name}") for name in DECIMALS}
    save(f"{folder}/wallets", [{"pubkey": base58_text(held.address), "account": account_value(TOKEN_PROGRAM, held.data)}
                               for held in snapshot.wallets if held.address not in hidden])


def main(program: str, folder: str) -> None:
    """Makes the day and saves it."""
    drawn = Drawn()
    morning = played(program, fresh(), night(drawn))
    sent = day(drawn, morning.markets[0])
    start = read_dump(("\n".join(dump_rows(morning)) + "\n").encode(), "the morning")
    start.markets[0].orders.append(Held(address(f"open orders {TRADERS - 1}"), bytes(3228)))
    evening = played(program, start, sent)
    save_accounts(morning, f"{folder}/morning")
    save_accounts(evening, f"{folder}/evening")
    os.makedirs(f"{folder}/transactions")
    values = [transaction_json(transaction, number) for number, transaction in enumerate(sent)]
    for place in range(0, len(values), FILE_HOLDS):
        save(f"{folder}/transactions/{place // FILE_HOLDS + 1}", values[place : place + FILE_HOLDS])
    failed = sum(transaction.failed for transaction in sent)
    print(f"{len(sent)} transactions, {failed} of them failed; market {base58_text(address('market'))}")


if __name__ == "__main__":
    if len(sys.argv) != 3:
        sys.exit("words: make_day.py PROGRAM FOLDER")
    main(sys.argv[1], sys.argv[2])
