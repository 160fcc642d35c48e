"""Instruction data: what an instruction of `Market.process` says. docs/FORMATS.md has the grammar; amounts are as in
`rows`."""

from __future__ import annotations

import re
import struct
from base64 import b64decode

from .rows import MOST_16, ORDER_TYPES, SELF_TRADES, SIDES, number
from .rows import take_data as take_text

MATCH, CONSUME, SETTLE, DISABLE, SWEEP, NEW, CANCEL, CANCEL_CLIENT, TAKE, CLOSE, INIT, PRUNE, CANCEL_CLIENTS = 2, 3, 5, 7, 8, 10, 11, 12, 13, 14, 15, 16, 18
NUMBER = re.compile('0|[1-9][0-9]*')
WORD = ' (0|[1-9][0-9]{0,19})'
NEW_WORDS = re.compile(f'new (bid|ask){WORD * 3} ({"|".join(SELF_TRADES)}) ({"|".join(ORDER_TYPES)}){WORD * 2}(?:{WORD})?')
ORDER, LATEST = struct.Struct('<BIIQQQIIQH'), struct.Struct('<q')
SELF_TRADE_NUMBERS, ORDER_TYPE_NUMBERS = ({word: at for at, word in enumerate(words)} for words in (SELF_TRADES, ORDER_TYPES))


def data_of(tag: int, *fields: tuple[int, int]) -> bytes:
    """The data of a tag, and numbers of so many bytes each. Raises ValueError where a number has no place in its
    field."""
    return b'\0' + b''.join(number(value, 'a number', 0, 256**length - 1).to_bytes(length, 'little') for value, length in ((tag, 4), *fields))


def numbered(words: dict[str, int], word: str, what: str) -> int:
    """The number of a word, where it is one of these."""
    if word not in words:
        raise ValueError(f'{what} is {word!r}, and one of {", ".join(words)} is wanted')
    return words[word]


def new_order(*, side: str, price: int, lots: int, pc: int | None = None, self_trade: str = 'decrement', order_type: str = 'limit',
              client: int = 0, limit: int = MOST_16, latest: int | None = None) -> bytes:
    """NewOrderV3, with the numbers of `rows.new_order`."""
    if pc is None and side == 'bid':
        raise ValueError('a bid names the most native quote that it may use: pc')
    if 0 in (price, lots, pc):
        raise ValueError('price, lots and pc are 1 at least')
    try:
        made = ORDER.pack(0, NEW, numbered(SIDES, side, 'side'), price, lots, 1 if pc is None else pc,
                          numbered(SELF_TRADE_NUMBERS, self_trade, 'self_trade'), numbered(ORDER_TYPE_NUMBERS, order_type, 'order_type'), client, limit)
        return made if latest is None else made + LATEST.pack(latest)
    except struct.error as error:
        raise ValueError(f'a number has no place in its field: {error}') from None


def take(side: str, price: int, lots: int, pc: int, least_lots: int = 0, least_pc: int = 0, limit: int = MOST_16) -> bytes:
    """SendTake, with the numbers of `take_data`."""
    return b64decode(take_text(side, price, lots, pc, least_lots, least_pc, limit))


def cancel(*clients: int, side: str | None = None, order: int | None = None) -> bytes:
    """Cancels orders by their client ids, one to eight; or one order by its side and id."""
    if order is not None:
        return data_of(CANCEL, (numbered(SIDES, side or '', 'side'), 4), (order, 16))
    if len(clients) == 1:
        return data_of(CANCEL_CLIENT, (clients[0], 8))
    number(len(clients), 'client ids', 1, 8)
    return data_of(CANCEL_CLIENTS, *((client, 8) for client in clients))


def consume(limit: int = MOST_16) -> bytes:
    """ConsumeEvents: a crank of at most `limit` events."""
    return data_of(CONSUME, (limit, 2))


def prune(limit: int = MOST_16) -> bytes:
    """Prune: the market's authority takes at most `limit` orders of a disabled market off the book."""
    return data_of(PRUNE, (limit, 2))


def settle() -> bytes:
    """SettleFunds."""
    return data_of(SETTLE)


def init() -> bytes:
    """InitOpenOrders."""
    return data_of(INIT)


def close() -> bytes:
    """CloseOpenOrders."""
    return data_of(CLOSE)


def sweep() -> bytes:
    """SweepFees."""
    return data_of(SWEEP)


def disable() -> bytes:
    """DisableMarket."""
    return data_of(DISABLE)


# Of each verb of a row that is numbers behind words: its tag, and how many bytes each number has.
NUMBERED = {
    'init': (INIT,), 'close': (CLOSE,), 'settle': (SETTLE,), 'sweep': (SWEEP,), 'disable': (DISABLE,), 'consume': (CONSUME, 2),
    'prune': (PRUNE, 2), 'match': (MATCH, 2), 'take': (TAKE, 4, 8, 8, 8, 8, 8, 2),
    'cancel': (CANCEL, 4, 16), 'cancelc': (CANCEL_CLIENT, 8), 'cancels': (CANCEL_CLIENTS, *[8] * 8),
}


def word_number(word: str, length: int) -> tuple[int, int]:
    """The number of a word, with how many bytes it has. ValueError where the word is none."""
    if not NUMBER.fullmatch(word):
        raise ValueError(f'{word!r} is no number')
    return int(word), length


def new_of_words(text: str) -> bytes:
    """The data of the words of an order. ValueError where they have no such form."""
    found = NEW_WORDS.fullmatch(text)
    if found is None:
        raise ValueError(f'{text!r} has not the form of an order')
    side, price, lots, pc, self_trade, order_type, client, limit, latest = found.groups()
    try:
        made = ORDER.pack(0, NEW, SIDES[side], int(price), int(lots), int(pc), SELF_TRADE_NUMBERS[self_trade],
                          ORDER_TYPE_NUMBERS[order_type], int(client), int(limit))
        return made if latest is None else made + LATEST.pack(int(latest))
    except struct.error as error:
        raise ValueError(f'a number has no place in its field: {error}') from None


def of_words(text: str) -> bytes:
    """The data of the words of a `do` row, such as `new ask 50 4 1 decrement limit 7 10`. ValueError where they have
    no such form."""
    verb, *words = text.split(' ')
    if verb == 'new':
        return new_of_words(text)
    if verb not in NUMBERED:
        raise ValueError(f'{verb!r} is no instruction')
    tag, *lengths = NUMBERED[verb]
    least = 1 if verb == 'cancels' else len(lengths)
    if not least <= len(words) <= len(lengths):
        raise ValueError(f'{text!r} has {len(words)} words behind the first, and {least} to {len(lengths)} are wanted')
    front = [(numbered(SIDES, words[0], 'side'), lengths[0])] if verb in ('take', 'cancel') else []
    numbers = [word_number(word, length) for word, length in zip(words[len(front):], lengths[len(front):])]
    return data_of(tag, *front, *numbers)
