"""Reports and dumps for the Python module, each with what has to be read from it."""

from __future__ import annotations

import os
import random
import re
import sys
from typing import Any, Optional

import changes
from support import ROOT

sys.path.insert(0, os.path.join(ROOT, "library"))
import daisyhook  # noqa: E402

NAMES = {daisyhook.Ordered: "order", daisyhook.Took: "take", daisyhook.Cancelled: "cancelled", daisyhook.Consumed: "consumed",
         daisyhook.Settled: "settled", daisyhook.Swept: "swept", daisyhook.Done: "done"}
OF_MARKET = ("address", "authority", "coin_mint", "pc_mint", "coin_lot", "pc_lot", "fee_rate_bps", "pc_fees", "coin_vault", "pc_vault", "is_disabled",
             "events", "bids", "asks", "depth", "open_orders")


def line_of(entry: daisyhook.Entry) -> str:
    """The line of an entry, from its parsed form."""
    reply = entry.reply
    if isinstance(reply, daisyhook.Refused):
        told = ["refused", reply.number, reply.name, *reply.values.values()]
    else:
        told = ["ok", NAMES[type(reply)], *(getattr(reply, field) for field in reply.__dataclass_fields__)]
    moves = [word for move in entry.moves for word in (move.wallet, move.kind, move.amount, move.before)]
    return " ".join(map(str, ["entry", entry.lane, entry.row, *told, *moves]))


def written(report: daisyhook.Report) -> bytes:
    """A report's text, put together from what was read."""
    lines = [f"report {report.rows}"]
    for market in report.markets.values():
        lines += [f"market {market.address} {len(market.journal)}", *map(line_of, market.journal)]
    for wallet in report.wallets.values():
        lines.append(f"wallet {wallet.address} {len(wallet.journal)}")
        lines += [f"move {one.market} {one.lane} {one.row} {one.kind} {one.amount} {one.before}" for one in wallet.journal]
    return "\n".join([*lines, ""]).encode() + report.dump + b"end\n"


def read(accounts: daisyhook.Accounts) -> list[Any]:
    """All that is read from accounts."""
    markets = {name: [getattr(market, word) for word in OF_MARKET] for name, market in accounts.markets.items()}
    return [accounts.mints, accounts.wallets, accounts.srm, accounts.msrm, markets]


class Inputs:
    """What is mutated."""

    def __init__(self, dumps: list[str]) -> None:
        self.dumps = dumps

    def try_report(self, draw: random.Random) -> Optional[str]:
        """The report of a made script is what is put together from what was read, and its accounts are those of its dump."""
        report = daisyhook.replay(daisyhook.make(draw.randrange(2**64), draw.randrange(1, 60)))
        if written(report) != report.text:
            return "what was read is not what stands there"
        text = changes.quoted_field(draw, report.dump.decode())
        if text.count('"') % 2 == 0 and re.fullmatch(r'((?:"[^" ]*"|[^" ,\n]*)[,\n])*', text):
            return self.wrong_dump(text, read(daisyhook.Accounts(report.dump)))
        return None

    def try_dump(self, draw: random.Random) -> Optional[str]:
        """Accounts that an audit takes are those of the dump that the program writes of them."""
        text = draw.choice(changes.OF_DUMPS)(draw, draw.choice(self.dumps))
        try:
            wanted = None if daisyhook.audit(text) else read(daisyhook.Accounts(daisyhook.dump(text)))
        except daisyhook.DexError:
            wanted = None
        return self.wrong_dump(text, wanted)

    def wrong_dump(self, text: str, wanted: Optional[list[Any]]) -> Optional[str]:
        """What is wrong with the accounts of a dump, if anything; none are wanted where it is refused."""
        try:
            found = read(daisyhook.accounts(text))
        except daisyhook.DexError:
            found = None
        return None if found == wanted else "other accounts are read than those that the program wrote"
