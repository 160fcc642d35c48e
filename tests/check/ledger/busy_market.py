"""Markets of a ledger's size, made from numbers: few traders among many idle accounts, and sides and a queue that are full."""

from __future__ import annotations

import copy
import random
from typing import Callable

from support import dex
from test_merging import with_idle
from bridge.dump_text import read_dump
from bridge.layouts import number_at
from bridge.snapshot import Snapshot

TRADERS = 15
MARKET = "market,m,coin,usd,admin,9999,9999,20000,AAAAAABkAAAAAAAAAAoAAAAAAAAAAAAAAAAAAAAAAAEAAAAAAAAA"


def opened(traders: int) -> list[str]:
    """The rows of a market of these traders, each with an open account and much of both mints."""
    rows = ["mint,coin,6", "mint,usd,6"]
    for number in range(traders):
        rows += [f"wallet,c{number},coin,t{number},5000000000", f"wallet,p{number},usd,t{number},9000000000"]
    rows += [MARKET, *(f"orders,m,a{number}" for number in range(traders))]
    return rows + [f"do,0,m,t{number},a{number},-,-,-,-,init" for number in range(traders)]


def small_market() -> Snapshot:
    """A market of a few traders."""
    return read_dump(dex("replay", "\n".join(opened(TRADERS)) + "\n").encode(), "small")


def idle(count: int) -> list[tuple[int, int, int]]:
    """The amounts of so many idle accounts."""
    return [(it % 500 * 100, it, it % 7) for it in range(count)]


def idle_first(snapshot: Snapshot, count: int) -> Snapshot:
    """The snapshot with so many idle accounts in front of its own."""
    own, after = len(snapshot.markets[0].orders), with_idle(snapshot, idle(count)) if count else copy.deepcopy(snapshot)
    orders = after.markets[0].orders
    after.markets[0].orders = orders[own:] + orders[:own]
    return after


def new_order(who: int, words: str) -> str:
    """The row of a trader's new order."""
    return f"do,0,m,t{who},a{who},c{who},p{who},-,-,new {words}"


def drawn_rows(count: int, number: int) -> list[str]:
    """Rows of a busy day: orders around a price, cancels of what a trader sent last, settles and cranks."""
    draw, all_accounts, rows = random.Random(number), " ".join(f"a{it}" for it in range(TRADERS)), []
    sent: list[list[int]] = [[] for _ in range(TRADERS)]
    for place in range(count):
        who, kind = draw.randrange(TRADERS), draw.random()
        if place % 16 == 15:
            rows.append(f"do,0,m,t0,{all_accounts},-,-,-,-,consume 64")
        elif kind < 0.1:
            rows.append(f"do,0,m,t{who},a{who},c{who},p{who},-,-,settle")
        elif kind < 0.55 and sent[who]:
            rows.append(f"do,0,m,t{who},a{who},-,-,-,-,cancelc {sent[who].pop(draw.randrange(len(sent[who])))}")
        else:
            side, price = draw.choice(("ask", "bid")), draw.randrange(45, 55)
            sent[who].append(place + 1)
            rows.append(new_order(who, f"{side} {price} {draw.randrange(1, 9)} 9000 decrement limit {place + 1} 10"))
    return rows


def crowded_market(run: Callable[[str, str], str]) -> Snapshot:
    """A market with 5,000 orders on each side and some 20,000 events that wait: 100 traders have 50 orders on each side, and
    another takes one lot of the first ask 20,000 times. It has more accounts than the program takes, so `run` is the wide one."""
    rows = opened(101)
    for place in range(5_000):
        who, lots = place % 100 + 1, 1 if place else 40_000
        rows.append(new_order(who, f"ask {50 + place // 100} {lots} 9000 decrement limit {place} 10"))
        rows.append(new_order(who, f"bid {49 - place // 200} 1 9000 decrement limit {place} 10"))
    rows += ["do,0,m,t0,-,c0,p0,-,-,take bid 50 1 9000 1 1 10"] * 20_000
    return read_dump(run("replay", "\n".join(rows) + "\n").encode(), "crowded")


def counts(snapshot: Snapshot) -> tuple[int, int, int]:
    """How many bids and asks rest in a market, and how many of its events wait, as its accounts say."""
    parts = snapshot.markets[0].parts
    bids, asks = (number_at("slab", "leaf_count", parts[side]) for side in ("bids", "asks"))
    return bids, asks, number_at("event_queue", "count", parts["event_q"])
