"""Making a script from a snapshot and transactions: a row for each instruction of the wanted markets, and one for two takes of a swap."""

from __future__ import annotations

from dataclasses import dataclass, field
from typing import Iterator, NamedTuple, Optional

from bridge.dump_text import dump_rows
from bridge.encoding import base64_text, dump_word, shown
from bridge.layouts import address_at
from bridge.refusals import Refusal
from bridge.snapshot import PARTS, Held, Market, Snapshot, is_blank
from bridge.tables import INSTRUCTIONS, MOST_DATA, MOST_NAMED, SIZES, Instruction
from bridge.transactions import Call, Transaction

LANE = 0
_INIT_OPEN_ORDERS, _NEW_ORDER, _SEND_TAKE = 15, 10, 13
_SIDE_PLACE, _WITH_LATEST_TIME = 5, 5 + 54
_TABLE = "the table of places (bridge/tables.json) does not fit this input"
_ROLES = ("coin", "pc", "discount", "referrer")
_NAMED_WORDS = PARTS + ("coin_mint", "pc_mint")


@dataclass(frozen=True)
class Wish:
    """What the user asks for: the markets, what programs' rules hold, and what to do where the script has no form for something."""

    markets: Optional[list[bytes]]
    rules_of: dict[bytes, str]
    leave_out_unknown: bool = False
    open_accounts: bool = False
    make_swaps: bool = True


@dataclass(frozen=True)
class Seen:
    """An instruction of a wanted market: its call, and which account has which role."""

    transaction: Transaction
    call: Call
    instruction: Instruction
    market: Market
    roles: dict[str, bytes]
    named: tuple[bytes, ...]

    def fault(self, what: str, remedy: str) -> Refusal:
        """What is wrong with this instruction."""
        return self.transaction.fault(f"instruction {self.call.number} ({self.instruction.name}): {what}", remedy)


@dataclass(frozen=True)
class Leg:
    """A take that may be a leg of a swap: its instruction, its signer, and the words of its wallets of coin and pc."""

    seen: Seen
    signer: bytes
    wallets: tuple[str, str]

    def fields(self) -> list[str]:
        """The fields of a swap row that are this leg's."""
        return [dump_word(self.seen.market.address), *self.wallets, base64_text(self.seen.call.data)]


@dataclass(frozen=True)
class Line:
    """A row of the script (or none) with what the table says of it (or nothing), and the take that it is, where a swap may have it."""

    row: Optional[str]
    told: str
    leg: Optional[Leg] = None


@dataclass
class Maker:
    """A script in the making."""

    snapshot: Snapshot
    wish: Wish
    markets: dict[bytes, Market]
    own: dict[bytes, str]
    wallets: set[bytes]
    kinds: dict[bytes, str]
    opened: dict[bytes, bool]
    market_of: dict[bytes, Market]
    lines: list[Line] = field(default_factory=list)
    rules: Optional[str] = None
    clock: Optional[int] = None
    without: int = 0

    def tell(self, told: str) -> None:
        """Adds a line to the table that is of no row."""
        self.lines.append(Line(None, told))


def _is_of_market(maker: Maker, call: Call) -> bool:
    """Whether a call is given one of the markets."""
    return any(account in maker.markets for account in call.accounts)


def _own_accounts(markets: dict[bytes, Market]) -> dict[bytes, str]:
    """The markets' own accounts, each with what it is: markets, vaults, queues and sides, which no other market's instruction names."""
    own = {address: f"the market {shown(address)}" for address in markets}
    for address, market in markets.items():
        own.update({market.part_address(part): f"the {part} of the market {shown(address)}" for part in PARTS})
    return own


def _own_in(own: dict[bytes, str], call: Call) -> Optional[str]:
    """What a call names of the markets' own accounts: the first, in words; none where it names none."""
    return next((f"{own[account]} at place {place}" for place, account in enumerate(call.accounts) if account in own), None)


def _tag_of(transaction: Transaction, call: Call) -> int:
    """The tag of an instruction."""
    if len(call.data) < 5 or call.data[0] != 0:
        raise transaction.fault(f"the data of instruction {call.number} is none of this program (0x{call.data[:8].hex()})",
                                "save the answer of getTransaction whole and as it is")
    return int.from_bytes(call.data[1:5], "little")


def _roles(transaction: Transaction, call: Call, instruction: Instruction) -> tuple[dict[str, bytes], tuple[bytes, ...]]:
    """The accounts of a call by their roles, and those that stand before them."""
    places = instruction.places or ()
    if len(call.accounts) < len(places):
        what = f"instruction {call.number} ({instruction.name}) has {len(call.accounts)} accounts, and {len(places)} are wanted"
        raise transaction.fault(what, _TABLE)
    start = len(call.accounts) - len(places) if instruction.named_in_front else 0
    roles = dict(zip(places, call.accounts[start:]))
    if instruction.optional and len(call.accounts) > len(places):
        roles[instruction.optional] = call.accounts[len(places)]
    return roles, call.accounts[:start]


def _check_places(seen: Seen) -> None:
    """Refuses accounts that are not those that the market names, and a signer that did not sign."""
    for role, address in seen.roles.items():
        if role in _NAMED_WORDS and address != address_at("market", role, seen.market.data):
            wanted = shown(address_at("market", role, seen.market.data))
            raise seen.fault(f"at the place of {role} stands {shown(address)}, and the market names {wanted}", _TABLE)
    signer = seen.roles.get("signer")
    is_inner = "." in seen.call.number
    if signer is not None and not is_inner and signer not in seen.transaction.signers:
        raise seen.fault(f"at the place of the signer stands {shown(signer)}, which did not sign", _TABLE)


def _seen(maker: Maker, transaction: Transaction, call: Call) -> Optional[Seen]:
    """The instruction that a call is, where it is one of the markets' and has a form in a script."""
    named_own = _own_in(maker.own, call)
    if named_own is None:
        return None
    tag = _tag_of(transaction, call)
    instruction = INSTRUCTIONS.get(tag)
    if instruction is None or instruction.places is None:
        _leave_unknown(maker, transaction, call, instruction.name if instruction else f"tag {tag}")
        return None
    roles, named = _roles(transaction, call, instruction)
    market = maker.markets.get(roles["market"])
    if market is None:
        what = f"instruction {call.number} ({instruction.name}) names {named_own}, and at the place of its market {shown(roles['market'])}"
        raise transaction.fault(what, _TABLE)
    if "orders" in roles:
        named = (roles["orders"],)
    seen = Seen(transaction, call, instruction, market, roles, named)
    _check_places(seen)
    return seen


def _leave_unknown(maker: Maker, transaction: Transaction, call: Call, name: str) -> None:
    """Refuses an instruction that has no form in a script, or leaves it out where the user asks to."""
    if not maker.wish.leave_out_unknown:
        what = f"instruction {call.number} ({name}) has no form in a script"
        raise transaction.fault(what, "end the day before it, or say --leave-out-unknown to go on without it")
    maker.without += 1
    maker.tell(f"without {transaction.slot} {transaction.signature} {call.number} {name}")


def _follow_rules(maker: Maker, seen: Seen) -> None:
    """Keeps to the rules of one program."""
    rules = maker.wish.rules_of[seen.call.program]
    if maker.rules not in (None, rules):
        raise seen.fault(f"it is of the program {rules}, and those before of {maker.rules}", "make a script of each program's market")
    maker.rules = rules


def _follow_clock(maker: Maker, seen: Seen) -> None:
    """Adds a clock row where the rules look at the clock and it has gone on."""
    time = seen.transaction.time
    if maker.rules != "openbook":
        return
    if time is None:
        if seen.instruction.tag == _NEW_ORDER and len(seen.call.data) == _WITH_LATEST_TIME:
            raise seen.fault("its order has a latest time, and the transaction no blockTime", "ask a node that keeps block times")
        return
    if not 0 <= time < 2**63:
        raise seen.fault(f"its blockTime is {time}", "save the answer of getTransaction as it is")
    if time != maker.clock:
        maker.clock = time
        maker.lines.append(Line(f"clock,{time}", ""))


def _wallet(maker: Maker, seen: Seen, role: str) -> bytes:
    """The wallet of a role, which has to be in the dump."""
    address = seen.roles[role]
    if address not in maker.wallets:
        raise seen.fault(f"the wallet {shown(address)} ({role}) is not in the dump", "get its account and make the dump with it")
    if role == "discount" and maker.snapshot.srm is None and maker.snapshot.msrm is None:
        raise seen.fault("it names a discount wallet, and the dump no srm or msrm", "make the dump with --srm or --msrm")
    return address


def _paying_role(data: bytes) -> str:
    """The role of the wallet that pays for a new order: quote for a bid, base for an ask."""
    return "coin" if any(data[_SIDE_PLACE : _SIDE_PLACE + 4]) else "pc"


def _wallets(maker: Maker, seen: Seen) -> list[str]:
    """The words of the four roles of a row."""
    words = {role: "-" for role in _ROLES}
    for role in _ROLES:
        if role in seen.roles:
            words[role] = dump_word(_wallet(maker, seen, role))
    if "payer" in seen.roles:
        words[_paying_role(seen.call.data)] = dump_word(_wallet(maker, seen, "payer"))
    return list(words.values())


def _wallets_of_call(transaction: Transaction, call: Call, markets: Optional[list[bytes]]) -> Iterator[tuple[str, bytes]]:
    """The wallets of a call of the program, each with its role, where it is on one of the markets."""
    instruction = INSTRUCTIONS.get(_tag_of(transaction, call))
    if instruction is None or instruction.places is None:
        return
    roles, _ = _roles(transaction, call, instruction)
    if markets is not None and roles["market"] not in markets:
        if any(account in markets for account in call.accounts):
            what = f"instruction {call.number} ({instruction.name}) names the market, and at its place stands {shown(roles['market'])}"
            raise transaction.fault(what, _TABLE)
        return
    if "payer" in roles:
        roles[_paying_role(call.data)] = roles["payer"]
    for role in _ROLES:
        if role in roles:
            yield role, roles[role]


def wallets_of(transactions: list[Transaction], wish: Wish) -> list[tuple[str, bytes]]:
    """The wallets that transactions use, each once, with the first role that it has."""
    found: dict[bytes, str] = {}
    for transaction in transactions:
        for call in transaction.calls:
            if call.program in wish.rules_of:
                for role, address in _wallets_of_call(transaction, call, wish.markets):
                    found.setdefault(address, role)
    return [(role, address) for address, role in found.items()]


def _row(seen: Seen, signer: bytes, wallets: list[str], data: bytes) -> str:
    """A row of an instruction."""
    named = " ".join(map(dump_word, seen.named)) or "-"
    return ",".join(["ix", str(LANE), dump_word(seen.market.address), dump_word(signer), named, *wallets, base64_text(data)])


def _told(seen: Seen, name: str, number: Optional[str] = None) -> str:
    """What the table says of a row."""
    return f"{seen.transaction.slot} {seen.transaction.signature} {number or seen.call.number} {name}"


def _leg(maker: Maker, seen: Seen, signer: bytes, wallets: list[str]) -> Optional[Leg]:
    """The leg that a row may be: a take that shows no discount wallet."""
    coin, pc, discount, _ = wallets
    is_take = maker.wish.make_swaps and seen.instruction.tag == _SEND_TAKE
    return Leg(seen, signer, (coin, pc)) if is_take and discount == "-" else None


def _is_swap(first: Leg, second: Leg) -> bool:
    """Whether two takes go together: of one transaction and signer, on two markets, and no wallet named twice."""
    is_one = first.seen.transaction is second.seen.transaction and first.signer == second.signer
    wallets = {*first.wallets, *second.wallets}
    return is_one and first.seen.market is not second.seen.market and len(wallets) == 4


def _swap(first: Leg, second: Leg) -> Line:
    """The row of two takes, which act both or neither, as their transaction did."""
    row = ",".join(["swap", str(LANE), dump_word(first.signer), *first.fields(), *second.fields()])
    return Line(row, _told(first.seen, "Swap", f"{first.seen.call.number},{second.seen.call.number}"))


def _add_line(maker: Maker, line: Line) -> None:
    """Adds a row; a take that goes with the take in the row before makes one row with it."""
    before = maker.lines[-1].leg if maker.lines else None
    if before is not None and line.leg is not None and _is_swap(before, line.leg):
        maker.lines[-1] = _swap(before, line.leg)
    else:
        maker.lines.append(line)


def _open(maker: Maker, seen: Seen, account: bytes) -> None:
    """Sees that an open-orders account is there and open before an instruction that wants one, as far as the dump can tell."""
    is_new_order = seen.instruction.tag == _NEW_ORDER
    if maker.opened.get(account) or (account in maker.opened and not is_new_order):
        return
    if not is_new_order or not maker.wish.open_accounts:
        what = f"the open-orders account {shown(account)} is not in the dump, or blank there, and no row opened it"
        more = ", or say --open-accounts where its first order opened it" if is_new_order else ""
        raise seen.fault(what, f"get its account and make the dump with it{more}")
    _reserve(maker, seen, account)
    data = bytes([0]) + _INIT_OPEN_ORDERS.to_bytes(4, "little")
    maker.lines.append(Line(_row(seen, seen.roles["signer"], ["-"] * 4, data), _told(seen, "InitOpenOrders made")))


def _reserve(maker: Maker, seen: Seen, account: bytes) -> None:
    """Adds a blank account to the dump for one that is opened and is not there; its address may be no other account's."""
    if account in maker.kinds:
        raise seen.fault(f"it opens {shown(account)}, which is a {maker.kinds[account]} of the dump", "compare the dump with the ledger's accounts")
    if account not in maker.opened:
        seen.market.orders.append(Held(account, bytes(SIZES["open_orders"].least)))
        maker.market_of[account] = seen.market
        maker.tell(f"blank {shown(account)} {shown(seen.market.address)}")
    maker.opened[account] = True


def _check_market_of(maker: Maker, seen: Seen) -> None:
    """Refuses an open-orders account that is another market's."""
    account = seen.roles.get("orders")
    market = maker.market_of.get(account) if account is not None else None
    if account is not None and market is not None and market is not seen.market:
        what = f"the open-orders account {shown(account)} is of the market {shown(market.address)}"
        raise seen.fault(what, "compare the dump with the ledger's accounts")


def _add(maker: Maker, seen: Seen) -> None:
    """Adds the row of an instruction."""
    _check_market_of(maker, seen)
    _follow_rules(maker, seen)
    _follow_clock(maker, seen)
    if seen.instruction.tag == _INIT_OPEN_ORDERS:
        _reserve(maker, seen, seen.named[0])
    elif "orders" in seen.roles:
        _open(maker, seen, seen.roles["orders"])
    if len(seen.named) > MOST_NAMED:
        raise seen.fault(f"it names {len(seen.named)} open-orders accounts, and a row at most {MOST_NAMED}", "end the day before it")
    if len(seen.call.data) > MOST_DATA:
        raise seen.fault(f"its data has {len(seen.call.data)} bytes, and a row's at most {MOST_DATA}", "end the day before it")
    signer = seen.roles.get("signer", seen.transaction.signers[0])
    wallets = _wallets(maker, seen)
    row = _row(seen, signer, wallets, seen.call.data)
    _add_line(maker, Line(row, _told(seen, seen.instruction.name), _leg(maker, seen, signer, wallets)))


def _check_told_whole(maker: Maker, transaction: Transaction) -> None:
    """Refuses a transaction whose inner calls nobody recorded, where another program was given a market."""
    for call in transaction.calls:
        is_other = call.program not in maker.wish.rules_of and _is_of_market(maker, call)
        if is_other and not transaction.is_told_whole:
            what = f"instruction {call.number} of {shown(call.program)} is given the market, and inner calls are not told"
            raise transaction.fault(what, "ask a node that records innerInstructions")


def follow(maker: Maker, transaction: Transaction) -> None:
    """Adds the rows of a transaction."""
    if transaction.failed:
        maker.tell(f"failed {transaction.slot} {transaction.signature}")
        return
    _check_told_whole(maker, transaction)
    before = len(maker.lines)
    for call in transaction.calls:
        if call.program in maker.own:
            what = f"the program of instruction {call.number} is {maker.own[call.program]}"
            raise transaction.fault(what, "save the answer of getTransaction whole and as it is")
        seen = _seen(maker, transaction, call) if call.program in maker.wish.rules_of else None
        if seen is not None:
            _add(maker, seen)
    if before == len(maker.lines):
        maker.tell(f"other {transaction.slot} {transaction.signature}")


def _wanted_markets(snapshot: Snapshot, wish: Wish) -> dict[bytes, Market]:
    """The markets that the user names, or all of the dump."""
    markets = {market.address: market for market in snapshot.markets}
    if wish.markets is None:
        return markets
    for address in wish.markets:
        if address not in markets:
            raise Refusal(f"market {shown(address)}", "--market names it, and the dump does not have it", "make the dump with it")
    return {address: markets[address] for address in wish.markets}


def head_of_table(rows: int, transactions: int, without: int) -> str:
    """The first line of the table."""
    left_out = f", without {without} instructions that have no form in a script" if without else ""
    return f"table {rows} rows of {transactions} transactions{left_out}"


def acting(lines: list[Line]) -> int:
    """How many of some lines are rows that act."""
    return sum(1 for line in lines if line.row is not None and line.told)


def numbered(lines: list[Line], first: int) -> Iterator[str]:
    """What the table tells of lines, with the numbers of their rows, the first of which has a number."""
    number = first
    for line in lines:
        if line.told:
            yield line.told if line.row is None else f"row {number} {line.told}"
        number += line.row is not None


def start(snapshot: Snapshot, wish: Wish) -> Maker:
    """A script before its first row. Accounts that its transactions open are added to the snapshot."""
    markets = _wanted_markets(snapshot, wish)
    opened = {held.address: not is_blank(held.data) for market in snapshot.markets for held in market.orders}
    market_of = {held.address: market for market in snapshot.markets for held in market.orders}
    kinds = {entry.address: entry.kind for entry in snapshot.entries() if entry.kind != "open_orders"}
    wallets = {held.address for held in snapshot.wallets}
    return Maker(snapshot, wish, markets, _own_accounts(markets), wallets, kinds, opened, market_of)


def _made(snapshot: Snapshot, transactions: list[Transaction], wish: Wish) -> Maker:
    """The lines of a script."""
    maker = start(snapshot, wish)
    for transaction in transactions:
        follow(maker, transaction)
    return maker


def program_rows(maker: Maker) -> list[str]:
    """The row that names the program, where its rules are not those of a script without one."""
    return ["program,openbook"] if maker.rules == "openbook" else []


def make_script(snapshot: Snapshot, transactions: list[Transaction], wish: Wish) -> tuple[list[str], list[str]]:
    """The rows of a script, and the lines of the table that tells which row is which instruction."""
    maker = _made(snapshot, transactions, wish)
    rows = list(dump_rows(snapshot))
    rows += program_rows(maker)
    table = [head_of_table(acting(maker.lines), len(transactions), maker.without), *numbered(maker.lines, len(rows) + 1)]
    return rows + [line.row for line in maker.lines if line.row is not None], table


class Step(NamedTuple):
    """A row that acts, and the instruction that it is: its number in the transaction, and its name."""

    row: str
    number: str
    name: str


def steps_of(snapshot: Snapshot, transaction: Transaction, wish: Wish) -> tuple[list[str], list[Step]]:
    """The rows of one transaction: those that stand in front, of program and clock, and those that act."""
    maker = _made(snapshot, [transaction], wish)
    front = program_rows(maker)
    steps = []
    for line in maker.lines:
        if line.row is not None and not line.told:
            front.append(line.row)
        elif line.row is not None:
            _, _, number, name = line.told.split(" ", 3)
            steps.append(Step(line.row, number, name))
    return front, steps
