"""Trying a transaction that was not sent: its rows act one after the other on a copy of the accounts, and all of them or none count."""

from __future__ import annotations

import copy
import dataclasses
from dataclasses import dataclass, field
from fractions import Fraction
from typing import Any, Iterator, NamedTuple, Optional

from bridge.accounts import TOKEN_KINDS
from bridge.encoding import address_of_dump, base58_of, base64_text, shown
from bridge.layouts import address_at, number_at
from bridge.program import Reply, replay_row
from bridge.queues import pending_events
from bridge.refusals import Refusal
from bridge.rows import Step, Wish, steps_of
from bridge.snapshot import VAULTS, Market, Snapshot
from bridge.tables import IDLE_PROGRAMS, OTHER_PROGRAMS, PROGRAMS, REASONS, TOKEN_PROGRAM, UNKNOWN_ERROR
from bridge.transactions import Call, Transaction

_MAKER_FILL, _RELEASING_OUT, _BID = 9, 18, 4
_ADDRESS_VALUES = ("owner", "authority", "mint", "account")
_MOST_PLACES = 12


class Fill(NamedTuple):
    """A fill of a resting order: base lots, the order's id, and the open-orders account that it is of."""

    lots: int
    order: int
    maker: bytes


@dataclass(frozen=True)
class Tried:
    """A row that was tried: the instruction that it is, its market, what it was answered (nothing where one before was refused), and
    what it filled."""

    step: Step
    market: Optional[Market]
    reply: Optional[Reply]
    fills: tuple[Fill, ...] = ()


@dataclass
class Outcome:
    """What a transaction would do: each row as it was tried, the accounts before and after, and instructions that were left out."""

    transaction: Transaction
    before: Snapshot
    after: Snapshot
    tried: list[Tried] = field(default_factory=list)
    left_out: list[Call] = field(default_factory=list)

    def refused(self) -> Optional[Tried]:
        """The row that was refused."""
        return next((one for one in self.tried if one.reply is not None and not one.reply.is_ok), None)


def _program_name(address: bytes) -> str:
    """A program in words."""
    known = {**{address: name for name, address in PROGRAMS.items()}, **IDLE_PROGRAMS, **OTHER_PROGRAMS}
    return f"{known[address]} ({base58_of(address)})" if address in known else shown(address)


def _left_out(transaction: Transaction, steps: list[Step], wish: Wish) -> list[Call]:
    """The instructions that no row tries: of other programs, and on other markets. Refused where the user does not ask for that."""
    done = {step.number for step in steps}
    left = [call for call in transaction.calls
            if "." not in call.number and call.number not in done and call.program not in IDLE_PROGRAMS]
    for call in left:
        if not wish.leave_out_unknown:
            what = f"instruction {call.number} is of {_program_name(call.program)}, and nobody here knows what it does"
            if call.program in wish.rules_of:
                what = f"instruction {call.number} is of {_program_name(call.program)}, and on no market of the dump"
            raise transaction.fault(what, "say --leave-out-unknown to try the transaction without it")
    return left


def _fills(before: Market, after: Market) -> tuple[Fill, ...]:
    """What a row filled, as the events that it appended tell: its makers' fills."""
    count = (number_at("event_queue", "seq_num", after.parts["event_q"]) - number_at("event_queue", "seq_num", before.parts["event_q"])) % 2**64
    events = pending_events(after.parts["event_q"])
    lot = number_at("market", "coin_lot_size", after.data)
    fills = []
    for event in events[len(events) - count :] if count else []:
        flags = number_at("event", "flags", event)
        if flags & ~_BID == _MAKER_FILL:
            native = number_at("event", "native_qty_released" if flags & _BID else "native_qty_paid", event)
            fills.append(Fill(native // lot, number_at("event", "order_id", event), address_at("event", "owner", event)))
    return tuple(fills)


def _market_of(snapshot: Snapshot, step: Step) -> Market:
    """The market of a row."""
    address = address_of_dump(step.row.split(",")[2])
    return next(market for market in snapshot.markets if market.address == address)


def simulate(program: list[str], snapshot: Snapshot, transaction: Transaction, wish: Wish) -> Outcome:
    """Tries a transaction. The first row that is refused ends it, and then the accounts after it are those before it."""
    start = copy.deepcopy(snapshot)
    front, steps = steps_of(start, transaction, wish)
    outcome = Outcome(transaction, start, start, [], _left_out(transaction, steps, wish))
    now = start
    for step in steps:
        if outcome.refused() is not None:
            outcome.tried.append(Tried(step, _market_of(start, step), None))
            continue
        market = _market_of(now, step)
        reply, now = replay_row(program, now, front, step.row)
        behind = _market_of(now, step)
        outcome.tried.append(Tried(step, market, reply, _fills(market, behind) if reply.name in ("order", "take") else ()))
    if outcome.refused() is None:
        outcome.after = now
    return outcome


def error_of(outcome: Outcome) -> Optional[dict[str, Any]]:
    """The fault as the ledger tells it: the number of the instruction from 0, and the program's own error number."""
    refused = outcome.refused()
    if refused is None or refused.reply is None:
        return None
    number = int(refused.step.number.split(".", maxsplit=1)[0]) - 1
    return {"InstructionError": [number, {"Custom": _error_number(refused.reply.name)}]}


def _error_number(name: str) -> int:
    """The public program's own error number of a reason, or the one that says that it has none."""
    return REASONS[name].error or UNKNOWN_ERROR


def _log_of(outcome: Outcome, call: Call, tried: dict[str, list[Tried]], depth: int) -> Iterator[str]:
    """The lines of a call and of those that it made; ends behind one that failed."""
    name = base58_of(call.program)
    inner = [one for one in outcome.transaction.calls if one.number.startswith(f"{call.number}.") and one.number in tried]
    if call in outcome.left_out and not inner:
        yield f"Program log: left out: instruction {call.number} of {name}"
        return
    yield f"Program {name} invoke [{depth}]"
    if call in outcome.left_out:
        yield f"Program log: left out: instruction {call.number} itself; what it called is tried"
    for one in inner:
        yield from _log_of(outcome, one, tried, depth + 1)
    refused = outcome.refused()
    for one_tried in tried.get(call.number, []):
        if one_tried.reply is not None:
            yield f"Program log: {one_tried.step.name}: {one_tried.reply.text()}"
    is_refused = refused is not None and refused.step.number in (call.number, *(one.number for one in inner))
    if is_refused and refused is not None and refused.reply is not None:
        yield f"Program {name} failed: custom program error: {_error_number(refused.reply.name):#x}"
    else:
        yield f"Program {name} success"


def logs_of(outcome: Outcome) -> list[str]:
    """The lines that the ledger's own log would have, up to the instruction that failed."""
    tried: dict[str, list[Tried]] = {}
    for one in outcome.tried:
        tried.setdefault(one.step.number, []).append(one)
    lines: list[str] = []
    for call in outcome.transaction.calls:
        if "." not in call.number:
            lines += _log_of(outcome, call, tried, 1)
        if lines and " failed: " in lines[-1]:
            break
    return lines


def _named(outcome: Outcome) -> set[bytes]:
    """All accounts that the tried calls name."""
    numbers = {one.step.number for one in outcome.tried}
    return {address for call in outcome.transaction.calls if call.number in numbers for address in call.accounts}


def _accounts(outcome: Outcome) -> list[dict[str, Any]]:
    """The accounts after, of those that the tried calls name; mints aside, which no row writes."""
    named = _named(outcome)
    programs = [call.program for call in outcome.transaction.calls if call.number in {one.step.number for one in outcome.tried}]
    told = []
    for entry in outcome.after.entries():
        if entry.address in named and entry.kind != "mint":
            owner = TOKEN_PROGRAM if entry.kind in TOKEN_KINDS else programs[0]
            told.append({"pubkey": base58_of(entry.address), "lamports": None, "owner": base58_of(owner),
                         "data": [base64_text(entry.data), "base64"], "executable": False, "space": len(entry.data)})
    return told


def decimals_of(snapshot: Snapshot) -> dict[bytes, int]:
    """The decimals of each mint."""
    return {held.address: number_at("mint", "decimals", held.data) for held in snapshot.mints}


def tokens(amount: int, decimals: int) -> str:
    """A native amount in tokens, exactly."""
    if decimals == 0:
        return str(amount)
    digits = str(amount).rjust(decimals + 1, "0")
    return f"{digits[:-decimals]}.{digits[-decimals:]}".rstrip("0").rstrip(".")


def _balances(outcome: Outcome, snapshot: Snapshot) -> list[dict[str, Any]]:
    """The token accounts of a transaction with their amounts, as the ledger tells them."""
    numbers = {address: number for number, address in enumerate(outcome.transaction.keys)}
    decimals = decimals_of(snapshot)
    told = []
    for entry in snapshot.entries():
        if entry.address in numbers and (entry.kind == "wallet" or entry.kind in VAULTS):
            mint, amount = address_at("token_account", "mint", entry.data), number_at("token_account", "amount", entry.data)
            places = decimals.get(mint, 0)
            told.append({"accountIndex": numbers[entry.address], "mint": base58_of(mint),
                         "owner": base58_of(address_at("token_account", "owner", entry.data)), "programId": base58_of(TOKEN_PROGRAM),
                         "uiTokenAmount": {"amount": str(amount), "decimals": places, "uiAmount": amount / 10**places,
                                           "uiAmountString": tokens(amount, places)}})
    return sorted(told, key=lambda one: int(one["accountIndex"]))


def _values_of(reply: Reply) -> dict[str, str]:
    """The values of a refusal by their names, addresses as the ledger writes them."""
    names = REASONS[reply.name].values
    return {name: base58_of(address_of_dump(value)) if name in _ADDRESS_VALUES else value for name, value in zip(names, reply.values)}


def _refusal(outcome: Outcome) -> Optional[dict[str, Any]]:
    """This exchange's own refusal: its number, name, values and words."""
    refused = outcome.refused()
    if refused is None or refused.reply is None:
        return None
    reason = REASONS[refused.reply.name]
    has_own = "the public program's own error number" if reason.error else "the public program has no error of its own for it"
    return {"number": reason.number, "name": refused.reply.name, "values": _values_of(refused.reply), "words": reason.words,
            "error": _error_number(refused.reply.name), "errorIs": has_own, "instruction": refused.step.number}


def _row(one: Tried) -> dict[str, Any]:
    """A row with its reply; none where a row before it was refused."""
    fills = [{"lots": str(fill.lots), "price": str(fill.order >> 64), "order": str(fill.order), "maker": base58_of(fill.maker)}
             for fill in one.fills]
    return {"instruction": one.step.number, "name": one.step.name, "row": one.step.row,
            "reply": one.reply.text() if one.reply else None, "fills": fills}


def answer_of(outcome: Outcome) -> dict[str, Any]:
    """What the transaction would do, in the shape of the `value` of simulateTransaction, and what this exchange tells beside it."""
    left = [{"instruction": call.number, "program": base58_of(call.program)} for call in outcome.left_out]
    return {"err": error_of(outcome), "logs": logs_of(outcome), "accounts": _accounts(outcome), "unitsConsumed": None, "returnData": None,
            "preBalances": None, "postBalances": None, "preTokenBalances": _balances(outcome, outcome.before),
            "postTokenBalances": _balances(outcome, outcome.after),
            "daisyhook": {"refusal": _refusal(outcome), "rows": [_row(one) for one in outcome.tried], "leftOut": left}}


class _Units:
    """How amounts, lots and prices of a market are told: in tokens."""

    def __init__(self, snapshot: Snapshot, market: Market) -> None:
        decimals = decimals_of(snapshot)
        self.coin = decimals.get(address_at("market", "coin_mint", market.data), 0)
        self.pc = decimals.get(address_at("market", "pc_mint", market.data), 0)
        self.coin_lot, self.pc_lot = (number_at("market", name, market.data) for name in ("coin_lot_size", "pc_lot_size"))

    def base(self, amount: int) -> str:
        """An amount of base."""
        return f"{tokens(amount, self.coin)} base"

    def quote(self, amount: int) -> str:
        """An amount of quote."""
        return f"{tokens(amount, self.pc)} quote"

    def price(self, lots: int) -> str:
        """A price in quote tokens for a base token; marked where it has more places than are told."""
        exact = Fraction(lots * self.pc_lot * 10**self.coin, self.coin_lot * 10**self.pc)
        cut = exact.numerator * 10**_MOST_PLACES // exact.denominator
        return tokens(cut, _MOST_PLACES) + ("" if Fraction(cut, 10**_MOST_PLACES) == exact else "..")


def _order_lines(units: _Units, values: tuple[int, ...]) -> Iterator[str]:
    """What a new order did: its fills as a whole, and what rests of it."""
    id_, _, lots, pc, fee, rested = values
    if lots:
        yield f"  filled in all {units.base(lots * units.coin_lot)} for {units.quote(pc)}; fee {units.quote(fee)}"
    else:
        yield "  filled nothing; fee 0 quote"
    yield f"  rests {units.base(rested * units.coin_lot)} at {units.price(id_ >> 64)}, order {id_}" if rested else "  rests nothing"


def _reply_lines(units: _Units, reply: Reply) -> Iterator[str]:
    """What a row did, in words."""
    if reply.name == "order":
        yield from _order_lines(units, tuple(map(int, reply.values)))
    elif reply.name == "take":
        lots, pc, fee = map(int, reply.values)
        yield f"  filled in all {units.base(lots * units.coin_lot)} for {units.quote(pc)}; fee {units.quote(fee)}"
    elif reply.name == "settled":
        coin, pc, referrer = map(int, reply.values)
        yield f"  paid out {units.base(coin)} and {units.quote(pc)}; to the referrer {units.quote(referrer)}"
    elif reply.name == "swept":
        yield f"  paid out {units.quote(int(reply.values[0]))} of fees"
    elif reply.name in ("cancelled", "consumed"):
        yield f"  {reply.name} {reply.values[0]} {'orders' if reply.name == 'cancelled' else 'events'}"
    else:
        yield "  done"


def _tried_lines(outcome: Outcome, one: Tried) -> Iterator[str]:
    """What a row did or why it was refused."""
    name = f"instruction {one.step.number} {one.step.name}"
    if one.reply is None:
        yield f"{name}: not tried"
    elif not one.reply.is_ok:
        values = ", ".join(f"{key} {value}" for key, value in _values_of(one.reply).items())
        reason = REASONS[one.reply.name]
        yield f"{name}: refused, {reason.number} {one.reply.name}{f' ({values})' if values else ''}: {reason.words}"
    elif one.market is not None:
        units = _Units(outcome.before, one.market)
        yield f"{name}:" if outcome.refused() is None else f"{name}, which is taken back:"
        for fill in one.fills:
            yield f"  filled {units.base(fill.lots * units.coin_lot)} at {units.price(fill.order >> 64)} of {shown(fill.maker)}"
        yield from _reply_lines(units, one.reply)


def _owed(market: Market, account: bytes) -> tuple[int, int, int]:
    """How many waiting events owe an account something, and what they owe of base and of quote."""
    count = coin = pc = 0
    for event in pending_events(market.parts["event_q"]):
        flags, released = number_at("event", "flags", event), number_at("event", "native_qty_released", event)
        if address_at("event", "owner", event) != account or flags & ~_BID not in (_MAKER_FILL, _RELEASING_OUT):
            continue
        gets_coin = (flags & ~_BID == _MAKER_FILL) == bool(flags & _BID)
        rebate = number_at("event", "native_fee_or_rebate", event) if flags & ~_BID == _MAKER_FILL and flags & _BID else 0
        count, coin, pc = count + 1, coin + (released if gets_coin else 0), pc + (0 if gets_coin else released) + rebate
    return count, coin, pc


def _account_lines(outcome: Outcome) -> Iterator[str]:
    """What the named open-orders accounts have after: free, locked, and owed by waiting events."""
    named = _named(outcome)
    for market in outcome.after.markets:
        units = _Units(outcome.after, market)
        for held in market.orders:
            if held.address not in named:
                continue
            coin_free, coin, pc_free, pc = (number_at("open_orders", f"native_{name}", held.data)
                                            for name in ("coin_free", "coin_total", "pc_free", "pc_total"))
            events, coin_owed, pc_owed = _owed(market, held.address)
            yield f"account {shown(held.address)}:"
            yield f"  free {units.base(coin_free)}, {units.quote(pc_free)}"
            yield f"  locked {units.base(coin - coin_free)}, {units.quote(pc - pc_free)}"
            yield f"  owed by {events} waiting events {units.base(coin_owed)}, {units.quote(pc_owed)}"


def _wallet_lines(outcome: Outcome) -> Iterator[str]:
    """The wallets before and after."""
    after = {held.address: number_at("token_account", "amount", held.data) for held in outcome.after.wallets}
    named, decimals = _named(outcome), decimals_of(outcome.before)
    for held in outcome.before.wallets:
        if held.address in named:
            mint, amount = address_at("token_account", "mint", held.data), number_at("token_account", "amount", held.data)
            was, is_now = (tokens(one, decimals.get(mint, 0)) for one in (amount, after[held.address]))
            yield f"wallet {shown(held.address)} of {shown(mint)}: {was} before, {is_now} after"


def table_of(outcome: Outcome) -> Iterator[str]:
    """What the transaction would do, for a person."""
    refused = outcome.refused()
    if refused is None:
        yield f"simulated: it succeeds, {len(outcome.tried)} rows"
    else:
        yield f"simulated: it fails at instruction {refused.step.number}, and changes nothing"
    for call in outcome.left_out:
        yield f"left out: instruction {call.number} of {_program_name(call.program)}"
    for one in outcome.tried:
        yield from _tried_lines(outcome, one)
    yield from _account_lines(outcome)
    yield from _wallet_lines(outcome)


def one_of(transactions: list[Transaction], where: str, clock: Optional[int]) -> Transaction:
    """The one transaction to be tried, at a time of the clock where one is given."""
    if len(transactions) != 1:
        raise Refusal(where, f"it holds {len(transactions)} transactions", "give one; `ledger script --unsent` takes several")
    return transactions[0] if clock is None else dataclasses.replace(transactions[0], time=clock)
