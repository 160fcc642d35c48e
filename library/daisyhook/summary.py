"""The summary that `bulk` gives."""

from __future__ import annotations

from dataclasses import dataclass


@dataclass(frozen=True, slots=True)
class MarketSummary:
    """A market at the end: how many bids and asks rest, how many events are pending, what the vaults hold and the fees that can be
    swept, in native units."""

    address: str
    bids: int
    asks: int
    events: int
    coin_vault: int
    pc_vault: int
    pc_fees: int


@dataclass(frozen=True, slots=True)
class Summary:
    """A made script's number and drawn rows; how many of its instruction rows were accepted and refused; and its markets."""

    number: int
    rows: int
    accepted: int
    refused: int
    markets: dict[str, MarketSummary]
    text: bytes


def summary_of(text: bytes) -> Summary:
    """The summary that a text tells."""
    head, accepted, refused, *markets = (line.split() for line in text.decode().splitlines())
    found = {words[1]: MarketSummary(words[1], *map(int, words[3::2])) for words in markets}
    return Summary(int(head[1]), int(head[2]), int(accepted[1]), int(refused[1]), found, text)
