"""Rows of a script, written exactly as a script has them, and DATA in base64.

>>> from daisyhook import rows
>>> amy = rows.Trader('m', 'ann', account='amy', coin='ann_coin', pc='ann_usd')
>>> rows.new_order(amy, side='ask', price=50, lots=4, client=7, limit=10)
'do,0,m,ann,amy,ann_coin,-,-,-,new ask 50 4 1 decrement limit 7 10\\n'

Each function gives the text of a row with its line feed, and raises ValueError where a word or a number has no place in it. So a script is
''.join(..) of rows. What a row does, and when it is refused, is in docs/BOOK.md.
"""

from __future__ import annotations

import re
from base64 import b64encode
from collections.abc import Iterable
from dataclasses import dataclass

TAKE = 13
SIDES = {'bid': 0, 'ask': 1}
SELF_TRADES, ORDER_TYPES = ('decrement', 'cancel', 'abort'), ('limit', 'ioc', 'post')
MOST_16, MOST_64 = 2**16 - 1, 2**64 - 1
ADDRESS = re.compile('[a-z0-9_]{1,24}|0x[0-9a-f]{64}')


@dataclass(frozen=True, slots=True)
class Trader:
    """Who acts on a market, and with what: the signer, the open-orders account, the token accounts of base and quote, a discount token's
    and a referrer's, where there are any; and the lane of the rows."""

    market: str
    signer: str
    account: str | None = None
    coin: str | None = None
    pc: str | None = None
    discount: str | None = None
    referrer: str | None = None
    lane: int = 0


def address(word: str) -> str:
    """The word, where it is an address of a script."""
    if not ADDRESS.fullmatch(word):
        raise ValueError(f'{word!r} is no address: 1 to 24 of a to z, 0 to 9 and _, or 0x and 64 hexadecimal digits')
    return word


def listed(words: Iterable[str]) -> tuple[str, ...]:
    """Addresses in their order. TypeError where they are one word, which would be read letter by letter."""
    if isinstance(words, str):
        raise TypeError(f'{words!r} is one word, and a list of addresses is wanted')
    return tuple(words)


def number(value: int, what: str, least: int = 0, most: int = MOST_64) -> int:
    """The number, where its field has a place for it."""
    if not least <= value <= most:
        raise ValueError(f'{what} is {value}, and {least} to {most} is wanted')
    return value


def one_of(word: str, words: Iterable[str], what: str) -> str:
    """The word, where it is one of a list."""
    if word not in words:
        raise ValueError(f'{what} is {word!r}, and one of {", ".join(words)} is wanted')
    return word


def row(who: Trader, words: str, *, named: Iterable[str] = (), coin: str | None = None, pc: str | None = None, discount: str | None = None,
        referrer: str | None = None) -> str:
    """A `do` row of these words."""
    accounts = ' '.join(map(address, listed(named))) or '-'
    roles = (address(word) if word else '-' for word in (coin, pc, discount, referrer))
    return ','.join(('do', str(number(who.lane, 'lane', 0, 15)), address(who.market), address(who.signer), accounts, *roles, words)) + '\n'


def named(who: Trader) -> tuple[str, ...]:
    """The trader's open-orders account, as a row names it."""
    if who.account is None:
        raise ValueError(f'{who.signer} has no open-orders account on {who.market}')
    return (who.account,)


def new_order(who: Trader, *, side: str, price: int, lots: int, pc: int | None = None, self_trade: str = 'decrement', order_type: str = 'limit',
              client: int = 0, limit: int = MOST_16, latest: int | None = None) -> str:
    """NewOrderV3. `price` is in pc lots a coin lot, `lots` in coin lots; `pc` is the most native quote that a bid may use with its fee (an
    ask needs none); `limit` is how many orders it may meet, `latest` the last clock at which it is taken."""
    if pc is None and side == 'bid':
        raise ValueError('a bid names the most native quote that it may use: pc')
    words = ['new', one_of(side, SIDES, 'side'), number(price, 'price', 1), number(lots, 'lots', 1), number(1 if pc is None else pc, 'pc', 1),
             one_of(self_trade, SELF_TRADES, 'self_trade'), one_of(order_type, ORDER_TYPES, 'order_type'), number(client, 'client'),
             number(limit, 'limit', 0, MOST_16)]
    words += [] if latest is None else [number(latest, 'latest', 0, 2**63 - 1)]
    payer = {'coin': who.coin} if side == 'ask' else {'pc': who.pc}
    return row(who, ' '.join(map(str, words)), named=named(who), discount=who.discount, **payer)


def take(who: Trader, *, side: str, price: int, lots: int, pc: int | None = None, least_lots: int = 0, least_pc: int = 0,
         limit: int = MOST_16) -> str:
    """SendTake: an order that meets at once, between wallets, without an open-orders account. Numbers as those of `take_data`."""
    if pc is None and side == 'bid':
        raise ValueError('a bid names the most native quote that it may use: pc')
    words = ('take', one_of(side, SIDES, 'side'), number(price, 'price', 1), number(lots, 'lots', 1), number(1 if pc is None else pc, 'pc', 1),
             number(least_lots, 'least_lots'), number(least_pc, 'least_pc'), number(limit, 'limit', 0, MOST_16))
    return row(who, ' '.join(map(str, words)), coin=who.coin, pc=who.pc, discount=who.discount)


def cancel(who: Trader, *clients: int, side: str | None = None, order: int | None = None) -> str:
    """Cancels orders by their client ids, one to eight; or one order by its side and id."""
    if order is not None:
        words = f'cancel {one_of(side or "", SIDES, "side")} {number(order, "order", 0, 2**128 - 1)}'
    elif len(clients) == 1:
        words = f'cancelc {number(clients[0], "client")}'
    else:
        number(len(clients), 'client ids', 1, 8)
        words = ' '.join(['cancels', *(str(number(client, 'client')) for client in clients)])
    return row(who, words, named=named(who))


def replace(who: Trader, client: int, *, side: str, price: int, lots: int, **more: object) -> str:
    """Two rows: the order of a client id is cancelled, and a new one of the same client id stands in its place. Where there is no such order
    the first row is refused, and the second acts all the same."""
    return cancel(who, client) + new_order(who, side=side, price=price, lots=lots, client=client, **more)


def settle(who: Trader) -> str:
    """SettleFunds: what is free goes to the wallets of base and quote."""
    return row(who, 'settle', named=named(who), coin=who.coin, pc=who.pc, referrer=who.referrer)


def consume(who: Trader, accounts: Iterable[str], limit: int = MOST_16) -> str:
    """ConsumeEvents: a crank of at most `limit` events, which stops before the first of an account that is not named (at most 16 are)."""
    return row(who, f'consume {number(limit, "limit", 0, MOST_16)}', named=accounts)


def init(who: Trader) -> str:
    """InitOpenOrders: the open-orders account becomes the signer's."""
    return row(who, 'init', named=named(who))


def close(who: Trader) -> str:
    """CloseOpenOrders: an empty account is closed for good."""
    return row(who, 'close', named=named(who))


def clock(now: int) -> str:
    """The clock of the rows behind it."""
    return f'clock,{number(now, "now", 0, 2**63 - 1)}\n'


def mint(name: str, decimals: int) -> str:
    """A token, whose supply is what its wallets hold."""
    return f'mint,{address(name)},{number(decimals, "decimals", 0, 255)}\n'


def wallet(name: str, mint: str, owner: str, amount: int) -> str:
    """A token account and its native amount."""
    return f'wallet,{address(name)},{address(mint)},{address(owner)},{number(amount, "amount")}\n'


def market(name: str, coin: str, pc: str, authority: str, *, coin_lot: int, pc_lot: int, nodes: int = 909, events: int = 2978) -> str:
    """A market with an empty book. `coin_lot` and `pc_lot` are native units of a lot; each side has so many nodes (an order and most further
    ones take two), and the queue room for so many events."""
    fields = (0, 1), (0, 4), (coin_lot, 8), (pc_lot, 8), (0, 2), (0, 8), (1, 8)
    words = map(address, (name, coin, pc, authority))
    sizes = str(number(nodes, 'nodes', 1, 65_536)), str(number(nodes, 'nodes', 1, 65_536)), str(number(events, 'events', 1, MOST_16))
    return ','.join(('market', *words, *sizes, data_of(fields))) + '\n'


def orders(market: str, account: str) -> str:
    """A blank open-orders account of a market."""
    return f'orders,{address(market)},{address(account)}\n'


def data_of(fields: Iterable[tuple[int, int]]) -> str:
    """Numbers of so many bytes each, in base64."""
    return b64encode(b''.join(number(value, 'a number', 0, 256**length - 1).to_bytes(length, 'little') for value, length in fields)).decode()


def take_data(side: str, price: int, lots: int, pc: int, least_lots: int = 0, least_pc: int = 0, limit: int = MOST_16) -> str:
    """DATA of a take, as a leg of a `swap` row has it.

    `side` is `bid` (buys) or `ask` (sells), `price` in pc lots a coin lot, `lots` in coin lots, `pc` the most native quote that a bid
    may spend with its fee (not read of an ask, yet above 0). The take is refused where it gets fewer than `least_lots` or less native
    quote than `least_pc`; it meets `limit` orders at most. Raises ValueError where a number has no place in its field.

    >>> legs = ('m', 'bob_coin', 'bob_usd', take_data('bid', 60, 3, 2000)), ('n', 'bob_coin2', 'bob_usd2', take_data('ask', 65, 3, 1))
    >>> row = ','.join(('swap', '1', 'bob', *legs[0], *legs[1]))
    """
    side_number = SIDES[one_of(side, SIDES, 'side')]
    return data_of(((0, 1), (TAKE, 4), (side_number, 4), (price, 8), (lots, 8), (pc, 8), (least_lots, 8), (least_pc, 8), (limit, 2)))
