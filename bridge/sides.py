"""Sides as lists of orders: walking the tree of an account of bids or asks, and what differs between two of them."""

from __future__ import annotations

from dataclasses import dataclass
from typing import Iterator, NamedTuple, Optional

from bridge.encoding import shown
from bridge.layouts import address_at, field_differences, number_at, size_of, value_text

Difference = tuple[str, str, str]

INNER, LEAF, FREE, LAST_FREE = 1, 2, 3, 4
_NODE, _HEADER, _BEHIND = size_of("free_node"), size_of("slab"), 7
_LAYOUT_OF = {INNER: "inner_node", LEAF: "leaf_node"}
_KEY_BITS = 128


class Order(NamedTuple):
    """A resting order, as its leaf says."""

    id: int
    owner: bytes
    slot: int
    tier: int
    lots: int
    client: int

    def text(self) -> str:
        """The order in one word."""
        return f"owner={shown(self.owner)},slot={self.slot},tier={self.tier},lots={self.lots},client={self.client}"


@dataclass(frozen=True)
class Side:
    """The bytes of a side, read node by node."""

    data: bytes

    def header(self, name: str) -> int:
        """A number of the header."""
        return number_at("slab", name, self.data)

    def nodes(self) -> int:
        """How many nodes there is room for."""
        return (len(self.data) - _HEADER - _BEHIND) // _NODE

    def node(self, number: int) -> bytes:
        """The bytes of a node."""
        return self.data[_HEADER + number * _NODE : _HEADER + (number + 1) * _NODE]

    def tag(self, number: int) -> int:
        """A node's tag."""
        return int.from_bytes(self.data[_HEADER + number * _NODE : _HEADER + number * _NODE + 4], "little")


class Broken(Exception):
    """A side that cannot be read as a list of orders."""


def _order(leaf: bytes) -> Order:
    """The order that a leaf holds."""
    return Order(number_at("leaf_node", "key", leaf), address_at("leaf_node", "owner", leaf), number_at("leaf_node", "owner_slot", leaf),
                 number_at("leaf_node", "fee_tier", leaf), number_at("leaf_node", "quantity", leaf),
                 number_at("leaf_node", "client_order_id", leaf))


def _check_child(key: int, parent: tuple[int, int, int]) -> None:
    """Refuses a node whose key does not begin with its parent's prefix and the bit of its place."""
    above, prefix, bit = parent
    if (key ^ above) >> (_KEY_BITS - prefix) or key >> (_KEY_BITS - 1 - prefix) & 1 != bit:
        raise Broken


def _children(node: bytes, parent: Optional[tuple[int, int, int]]) -> list[tuple[int, tuple[int, int, int]]]:
    """The children of an inner node, the second first, each with what its key must begin with."""
    prefix, key = number_at("inner_node", "prefix_len", node), number_at("inner_node", "key", node)
    if prefix >= _KEY_BITS or (parent is not None and prefix <= parent[1]):
        raise Broken
    names = ("second_child", "first_child")
    return [(number_at("inner_node", name, node), (key, prefix, bit)) for name, bit in zip(names, (1, 0))]


def _walk(side: Side, met: set[int]) -> list[Order]:
    """The orders of the tree from the lowest key to the highest; adds the nodes that are met."""
    orders: list[Order] = []
    waiting: list[tuple[int, Optional[tuple[int, int, int]]]] = []
    if side.header("leaf_count"):
        waiting.append((side.header("root_node"), None))
    while waiting:
        number, parent = waiting.pop()
        if number >= side.header("bump_index") or number in met or side.tag(number) not in (INNER, LEAF):
            raise Broken
        met.add(number)
        node = side.node(number)
        if parent is not None:
            _check_child(number_at("inner_node", "key", node), parent)
        if side.tag(number) == LEAF:
            orders.append(_order(node))
        else:
            waiting.extend(_children(node, parent))
    return orders


def _check_free(side: Side, met: set[int]) -> None:
    """Refuses a free list that is not as long as the header says, or that holds a node that is met already."""
    number, length = side.header("free_list_head"), side.header("free_list_len")
    for place in range(length):
        is_last = place + 1 == length
        if number >= side.header("bump_index") or number in met or side.tag(number) != (LAST_FREE if is_last else FREE):
            raise Broken
        met.add(number)
        number = number_at("free_node", "next", side.node(number))


def orders_of(side: Side) -> list[Order]:
    """The orders of a side, from the lowest id to the highest. Broken where the tree or the free list is none."""
    met: set[int] = set()
    if side.header("bump_index") > side.nodes():
        raise Broken
    orders = _walk(side, met)
    if len(orders) != side.header("leaf_count"):
        raise Broken
    _check_free(side, met)
    if len(met) != side.header("bump_index"):
        raise Broken
    return orders


def _header_places(side: Side) -> tuple[int, ...]:
    """Where the header says that the tree and the free list begin, as far as it is read."""
    leaves, free = side.header("leaf_count"), side.header("free_list_len")
    root = side.header("root_node") if leaves else 0
    return side.header("bump_index"), leaves, root, free, side.header("free_list_head") if free else 0


def _places(side: Side) -> list[tuple[int, ...]]:
    """Which node holds what: of each node below bump_index its tag and the nodes that it leads to."""
    places = [_header_places(side)]
    for number in range(min(side.header("bump_index"), side.nodes())):
        node, tag = side.node(number), side.tag(number)
        if tag == INNER:
            places.append((tag, number_at("inner_node", "first_child", node), number_at("inner_node", "second_child", node)))
        else:
            places.append((tag, number_at("free_node", "next", node) if tag == FREE else 0))
    return places


def _is_placed_alike(first: Side, second: Side) -> bool:
    """Whether both sides hold their orders in the same nodes, so that nodes can be compared one by one."""
    return len(first.data) == len(second.data) and _places(first) == _places(second)


def _node_name(side: Side, number: int) -> str:
    """What a node is called: an order by its id, every other by its number."""
    node = side.node(number)
    if side.tag(number) == LEAF:
        return f"order {number_at('leaf_node', 'key', node)}"
    return f"node {number}"


def _is_behind_prefix(first: bytes, second: bytes) -> bool:
    """Whether the keys of two inner nodes differ only in bits behind their prefix, which nobody reads."""
    prefix = number_at("inner_node", "prefix_len", first)
    keys = number_at("inner_node", "key", first) ^ number_at("inner_node", "key", second)
    return prefix < _KEY_BITS and keys >> (_KEY_BITS - prefix) == 0


def _fields_of_node(ours: bytes, theirs: bytes, exact: bool) -> Iterator[Difference]:
    """What differs between two nodes; without `exact`, bits of a key that nobody reads are passed over."""
    tag = ours[:4]
    if tag != theirs[:4]:
        yield "tag", value_text("number", tag), value_text("number", theirs[:4])
        if ours[4:] != theirs[4:]:
            yield "behind_tag", value_text("bytes", ours[4:]), value_text("bytes", theirs[4:])
        return
    layout = _LAYOUT_OF.get(int.from_bytes(tag, "little"), "free_node")
    for name, one, other in field_differences(layout, ours, theirs):
        if exact or not (layout == "inner_node" and name == "key" and _is_behind_prefix(ours, theirs)):
            yield name, one, other


def _node_differences(first: Side, second: Side, exact: bool) -> Iterator[Difference]:
    """What differs between two sides, node by node."""
    for number in range(min(first.nodes(), second.nodes())):
        if first.node(number) != second.node(number):
            for name, one, other in _fields_of_node(first.node(number), second.node(number), exact):
                yield f"{_node_name(first, number)} {name}", one, other


def _unfilled_differences(first: Side, second: Side) -> Iterator[Difference]:
    """What differs in the bytes that fill no node, of sides of one length."""
    start = _HEADER + first.nodes() * _NODE
    ours, theirs = first.data[start:-_BEHIND], second.data[start:-_BEHIND]
    if len(first.data) == len(second.data) and ours != theirs:
        yield "bytes_that_fill_no_node", "0x" + ours.hex(), "0x" + theirs.hex()


def _order_differences(first: list[Order], second: list[Order]) -> Iterator[Difference]:
    """What differs between two lists of orders."""
    ours, theirs = {order.id: order for order in first}, {order.id: order for order in second}
    for id_ in sorted(ours.keys() | theirs.keys()):
        one, other = ours.get(id_), theirs.get(id_)
        if one is None or other is None:
            yield f"order {id_}", one.text() if one else "-", other.text() if other else "-"
        elif one != other:
            yield from _leaf_differences(one, other)


def _leaf_differences(first: Order, second: Order) -> Iterator[Difference]:
    """What differs between two orders of one id."""
    names = ("owner", "owner_slot", "fee_tier", "quantity", "client_order_id")
    values = zip(names, first[1:], second[1:])
    for name, one, other in values:
        if one != other:
            ours, theirs = (shown(value) if isinstance(value, bytes) else str(value) for value in (one, other))
            yield f"order {first.id} {name}", ours, theirs


def side_differences(first_data: bytes, second_data: bytes, exact: bool) -> Iterator[Difference]:
    """What differs between two sides. Without `exact`, two sides that can both be read are compared by their orders."""
    first, second = Side(first_data), Side(second_data)
    header = field_differences("slab", first_data, second_data)
    ours, theirs = _orders_or_none(first), _orders_or_none(second)
    if exact or ours is None or theirs is None:
        yield from header
        yield from _node_differences(first, second, True)
    elif _is_placed_alike(first, second):
        yield from header
        yield from _node_differences(first, second, False)
    else:
        yield from (row for row in header if row[0] in ("serum", "account_flags"))
        yield from _order_differences(ours, theirs)
    yield from _unfilled_differences(first, second)


def _orders_or_none(side: Side) -> Optional[list[Order]]:
    """The orders of a side, or None where it cannot be read."""
    try:
        return orders_of(side)
    except Broken:
        return None
