"""Queues of events as lists, and what differs between two of them."""

from __future__ import annotations

from typing import Iterator

from bridge.encoding import shown
from bridge.layouts import address_at, field_differences, number_at, size_of

Difference = tuple[str, str, str]

_EVENT, _HEADER, _BEHIND = size_of("event"), size_of("event_queue"), 7
_FLAG_NAMES = ((1, "Fill"), (2, "Out"), (4, "Bid"), (8, "Maker"), (16, "ReleaseFunds"))


def _capacity(data: bytes) -> int:
    """How many events there is room for."""
    return (len(data) - _HEADER - _BEHIND) // _EVENT


def _event(data: bytes, place: int) -> bytes:
    """The event at a place of the ring."""
    return data[_HEADER + place * _EVENT : _HEADER + (place + 1) * _EVENT]


def pending_places(data: bytes) -> list[int]:
    """The places of the pending events, oldest first; none where the head or the count does not fit the queue."""
    head, count = number_at("event_queue", "head", data), number_at("event_queue", "count", data)
    capacity = _capacity(data)
    if head >= capacity or count > capacity:
        return []
    return [(head + number) % capacity for number in range(count)]


def pending_events(data: bytes) -> list[bytes]:
    """The pending events, oldest first."""
    return [_event(data, place) for place in pending_places(data)]


def _event_text(event: bytes) -> str:
    """An event in one word."""
    flags = number_at("event", "flags", event)
    names = "+".join(name for flag, name in _FLAG_NAMES if flags & flag) or str(flags)
    numbers = ("owner_slot", "fee_tier", "native_qty_released", "native_qty_paid", "native_fee_or_rebate", "order_id", "client_order_id")
    values = ",".join(f"{name}={number_at('event', name, event)}" for name in numbers)
    return f"{names},owner={shown(address_at('event', 'owner', event))},{values}"


def _same_front(first: list[bytes], second: list[bytes]) -> int:
    """How many events from the front are the same."""
    for number, (ours, theirs) in enumerate(zip(first, second)):
        if ours != theirs:
            return number
    return min(len(first), len(second))


def _list_differences(first: list[bytes], second: list[bytes]) -> Iterator[Difference]:
    """What differs between two lists of events, the same events at both ends aside."""
    front = _same_front(first, second)
    back = _same_front(first[front:][::-1], second[front:][::-1])
    ours, theirs = first[front : len(first) - back], second[front : len(second) - back]
    for number in range(max(len(ours), len(theirs))):
        name = f"event {front + number}"
        if number >= len(ours) or number >= len(theirs):
            yield name, _event_text(ours[number]) if number < len(ours) else "-", _event_text(theirs[number]) if number < len(theirs) else "-"
        elif ours[number] != theirs[number]:
            for field, one, other in field_differences("event", ours[number], theirs[number]):
                yield f"{name} {field}", one, other


def _unused_differences(first: bytes, second: bytes, used: set[int]) -> Iterator[Difference]:
    """The first place of the ring that is not in use and differs, of queues of one capacity, and how many such places there are."""
    places = [place for place in range(_capacity(first)) if place not in used and _event(first, place) != _event(second, place)]
    for place in places[:1]:
        for field, one, other in field_differences("event", _event(first, place), _event(second, place)):
            yield f"unused_event {place} (1 of {len(places)}) {field}", one, other


def _unfilled_differences(first: bytes, second: bytes) -> Iterator[Difference]:
    """What differs in the bytes that fill no event."""
    start = _HEADER + _capacity(first) * _EVENT
    ours, theirs = first[start:-_BEHIND], second[start:-_BEHIND]
    if ours != theirs:
        yield "bytes_that_fill_no_event", "0x" + ours.hex(), "0x" + theirs.hex()


def event_queue_differences(first: bytes, second: bytes) -> Iterator[Difference]:
    """What differs between two event queues: the header, the lists of pending events, and the rest where both are alike in it."""
    header = list(field_differences("event_queue", first, second))
    yield from header
    ours, theirs = pending_places(first), pending_places(second)
    yield from _list_differences([_event(first, place) for place in ours], [_event(second, place) for place in theirs])
    if len(first) == len(second) and ours == theirs:
        yield from _unused_differences(first, second, set(ours))
        yield from _unfilled_differences(first, second)
