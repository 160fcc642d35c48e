"""The lines of journals: what a row was answered, and what it did to the wallets that it names."""

from __future__ import annotations

from dataclasses import dataclass

from .tables import REFUSAL_VALUES


@dataclass(frozen=True, slots=True)
class Reply:
    """What a row was answered."""


@dataclass(frozen=True, slots=True)
class Ordered(Reply):
    """A new order: its id and its slot; the coin lots that filled, what they cost or brought and the fee in native quote; the lots
    that rest on the book."""

    id: int
    slot: int
    lots_filled: int
    pc: int
    fee: int
    lots_resting: int


@dataclass(frozen=True, slots=True)
class Took(Reply):
    """A take: the coin lots that filled, and what they cost or brought and the fee in native quote."""

    lots_filled: int
    pc: int
    fee: int


@dataclass(frozen=True, slots=True)
class Cancelled(Reply):
    """How many orders left the book."""

    orders: int


@dataclass(frozen=True, slots=True)
class Consumed(Reply):
    """How many events a crank paid."""

    events: int


@dataclass(frozen=True, slots=True)
class Settled(Reply):
    """What the wallets of base, of quote and of the referrer got, native."""

    coin: int
    pc: int
    referrer: int


@dataclass(frozen=True, slots=True)
class Swept(Reply):
    """What the wallet of quote got of the fees, native."""

    pc: int


@dataclass(frozen=True, slots=True)
class Done(Reply):
    """There is nothing to tell; of a leg of a swap, that it was held back and did nothing, because the other one was refused."""


@dataclass(frozen=True, slots=True)
class Refused(Reply):
    """A refusal: the reason's number (1 to 24) and name, and its values by their names."""

    number: int
    name: str
    values: dict[str, int | str]


REPLIES: dict[str, type[Reply]] = {
    'order': Ordered, 'take': Took, 'cancelled': Cancelled, 'consumed': Consumed, 'settled': Settled, 'swept': Swept, 'done': Done,
}
WORDS = {reply: word for word, reply in REPLIES.items()}
FIELDS = {'order': 6, 'take': 3, 'cancelled': 1, 'consumed': 1, 'settled': 3, 'swept': 1, 'done': 0}

ADDRESSES = frozenset(('owner', 'authority', 'mint', 'account'))


@dataclass(frozen=True, slots=True)
class Move:
    """What a row did to a wallet: `kind` is `probe` (looked at), `debit` (taken out) or `credit` (put in); the native amount, and the
    balance before."""

    wallet: str
    kind: str
    amount: int
    before: int


@dataclass(frozen=True, slots=True)
class Entry:
    """An entry of a market's journal: the lane and the number of the row, counted from 1 over all rows of the script; what it was
    answered; and what happened to each wallet that it names, by rising address. Of a swap it is the leg on that market."""

    lane: int
    row: int
    reply: Reply
    moves: tuple[Move, ...]


@dataclass(frozen=True, slots=True)
class WalletEntry:
    """An entry of a wallet's journal: the row, by market, lane and number; what it did, the native amount, and the balance before."""

    market: str
    lane: int
    row: int
    kind: str
    amount: int
    before: int


def refusal_of(words: list[str]) -> tuple[Reply, int]:
    """The refusal that stands from the fifth word on, and how many words come before what follows."""
    number, name = int(words[4]), words[5]
    names = REFUSAL_VALUES.get(name, ())
    values: dict[str, int | str] = {key: word if key in ADDRESSES else int(word) for key, word in zip(names, words[6:])}
    return Refused(number, name, values), 6 + len(names)


def reply_of(words: list[str]) -> tuple[Reply, int]:
    """The reply of an entry's words, and how many words come before what follows."""
    if words[3] == 'refused':
        return refusal_of(words)
    behind = 5 + FIELDS[words[4]]
    return REPLIES[words[4]](*map(int, words[5:behind])), behind


def entry_of(line: str) -> Entry:
    """The entry that a line of a market's journal tells."""
    words = line.split(' ')
    reply, behind = reply_of(words)
    moves = tuple(
        Move(words[at], words[at + 1], int(words[at + 2]), int(words[at + 3])) for at in range(behind, len(words), 4)
    )
    return Entry(int(words[1]), int(words[2]), reply, moves)


def words_of(reply: Reply) -> list[str]:
    """The words of a reply, as an entry has them."""
    if isinstance(reply, Refused):
        return ['refused', str(reply.number), reply.name, *map(str, reply.values.values())]
    return ['ok', WORDS[type(reply)], *(str(getattr(reply, name)) for name in reply.__dataclass_fields__)]


def line_of(entry: Entry) -> str:
    """An entry's line in a market's journal."""
    moves = [word for move in entry.moves for word in (move.wallet, move.kind, str(move.amount), str(move.before))]
    return ' '.join(['entry', str(entry.lane), str(entry.row), *words_of(entry.reply), *moves])


def wallet_entry_of(line: str) -> WalletEntry:
    """The entry that a line of a wallet's journal tells."""
    _, market, lane, row, kind, amount, before = line.split(' ')
    return WalletEntry(market, int(lane), int(row), kind, int(amount), int(before))


def wallet_line_of(entry: WalletEntry) -> str:
    """An entry's line in a wallet's journal."""
    return f'move {entry.market} {entry.lane} {entry.row} {entry.kind} {entry.amount} {entry.before}'
