#!/usr/bin/env python3
"""Makes three days of three markets, as a ledger's tools print them: the accounts of the first morning and of the last evening, a folder a
market, and the transactions of all three in between, a file a day. It draws them as examples/ledger/make_day.py does, and PROGRAM says what
is accepted; the evening is what PROGRAM leaves behind all rows of a market in one script, which this file writes by itself. No trader and
no wallet is of two markets. Words: make_month.py PROGRAM FOLDER. It prints a line for each market: its name, address, authority and SRM."""

from __future__ import annotations

import os
import sys

sys.dont_write_bytecode = True
sys.path.insert(0, os.path.join(os.path.dirname(os.path.abspath(__file__)), "..", "ledger"))

import make_day as day  # noqa: E402

MARKETS, DAYS, SECONDS = ("apples", "pears", "plums"), 3, 86_400


def later_day(drawn: day.Drawn, number: int) -> list[day.Sent]:
    """The transactions of a further day. Now and then another program makes the call."""
    drawn.time = day.TIME + number * SECONDS
    sent = []
    for place in range(day.DAY):
        drawn.time += drawn.random.randrange(5, 300)
        steps = drawn.some()
        sent.append(day.Sent(steps, "called" if place % 50 == 7 and len(steps) == 1 else "plain", time=drawn.time))
    return sent


def make_market(program: str, folder: str, name: str) -> list[dict[str, object]]:
    """Saves a market's accounts, and answers its transactions."""
    day.OF = f"month of {name}"
    drawn = day.Drawn(MARKETS.index(name))
    morning = day.played(program, day.fresh(), day.night(drawn))
    sent = day.day(drawn, morning.markets[0])
    for number in range(1, DAYS):
        sent += later_day(drawn, number)
    start = day.read_dump(("\n".join(day.dump_rows(morning)) + "\n").encode(), "the morning")
    start.markets[0].orders.append(day.Held(day.address(f"open orders {day.TRADERS - 1}"), bytes(3228)))
    evening = day.played(program, start, sent)
    day.save_accounts(morning, f"{folder}/morning/{name}")
    day.save_accounts(evening, f"{folder}/evening/{name}")
    print(name, *(day.base58_text(day.address(each)) for each in ("market", "authority", "srm")))
    return [day.transaction_json(transaction, number) for number, transaction in enumerate(sent)]


def main(program: str, folder: str) -> None:
    """Makes all markets, and saves the transactions of each day in the order of their slots."""
    os.makedirs(f"{folder}/transactions")
    made = [value for name in MARKETS for value in make_market(program, folder, name)]
    for number in range(DAYS):
        begun = day.TIME + number * SECONDS
        of_day = [value for value in made if begun <= value["blockTime"] < begun + SECONDS]
        day.save(f"{folder}/transactions/{number + 1}", sorted(of_day, key=lambda value: value["slot"]))


if __name__ == "__main__":
    if len(sys.argv) != 3:
        sys.exit("words: make_month.py PROGRAM FOLDER")
    main(sys.argv[1], sys.argv[2])
