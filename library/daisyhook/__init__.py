"""Daisyhook, a proved order book, from Python.

>>> import daisyhook
>>> report = daisyhook.replay(open('examples/two_traders.csv', 'rb').read())
>>> [entry.reply for entry in report.markets['m'].journal][2].lots_resting
4
>>> report.wallets['ann_usd'].amount
1500

Each function takes bytes and gives what the program `dex` prints for them, as text and parsed. What is proved is the text; that it is
parsed right is tested. All amounts are native units of a token (the smallest there is), unless a name says lots: a coin lot is the least
base that an order can move, `Market.coin_lot` native units of it, and a price is in pc lots a coin lot, of `Market.pc_lot` native units of
quote. Text may be given in place of bytes.

What reads a dump or a script takes `limits`: `STANDARD`, those of the program, or `WIDE`, for markets of a ledger's
size.

The commands `run` and `batch` need threads of their own and are not here: they are the program's alone.

The module keeps nothing between calls, so threads may call it at once; they run side by side inside the library.
"""

from . import data, flow, rows
from .accounts import Market as DumpedMarket
from .accounts import Accounts, Depth, Event, Level, Mint, OpenOrders, Order, Wallet
from .commands import accounts, audit, bulk, chained, dump, make, migrate, replay, shards, worth
from .desk import Desk
from .entries import Cancelled, Consumed, Done, Entry, Move, Ordered, Refused, Reply, Settled, Swept, Took, WalletEntry
from .errors import AccountsRefused, AuditFailed, DeskGone, DexError, DumpRefused, Finding, Flaw, InputTooLong, MigrateRefused, NotSound, OutOfLimits
from .errors import OutOfMemory, ScriptRefused
from .exchange import Exchange
from .limits import STANDARD, WIDE, Limits
from .market import Market
from .parts import Shards
from .report import Report
from .rows import take_data
from .summary import MarketSummary, Summary
from .swaps import Leg, Swap
from .worth import Worth, Worths

__all__ = [
    'replay', 'dump', 'audit', 'worth', 'migrate', 'make', 'bulk', 'shards', 'chained', 'accounts', 'Exchange', 'Desk', 'take_data',
    'rows', 'flow', 'data', 'Limits', 'STANDARD', 'WIDE',
    'Report', 'Entry', 'Move', 'WalletEntry', 'Swap', 'Leg',
    'Reply', 'Ordered', 'Took', 'Cancelled', 'Consumed', 'Settled', 'Swept', 'Done', 'Refused',
    'Accounts', 'DumpedMarket', 'Market', 'Mint', 'Wallet', 'Order', 'Event', 'OpenOrders', 'Depth', 'Level',
    'Summary', 'MarketSummary', 'Worth', 'Worths', 'Shards',
    'DexError', 'DeskGone', 'ScriptRefused', 'DumpRefused', 'AuditFailed', 'MigrateRefused', 'InputTooLong', 'OutOfLimits', 'OutOfMemory', 'Finding',
    'AccountsRefused', 'NotSound', 'Flaw',
]
