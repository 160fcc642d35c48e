"""The library's functions: bytes in, a status and bytes out. `library/dex.h` says what each promises."""

from __future__ import annotations

import ctypes
import os
import platform
from functools import lru_cache
from pathlib import Path

NOTHING, SIZE = ctypes.c_char_p, ctypes.c_size_t
# What stands before the room: the input with its length, numbers, or both.
INPUT = (NOTHING, SIZE)
SIZES = (ctypes.c_uint32, ctypes.c_uint32)
MADE = (ctypes.c_uint64, ctypes.c_uint32)
ROWS = (ctypes.c_uint32,)
FRONTS = {
    'dex_replay': INPUT, 'dex_dump': INPUT, 'dex_audit': INPUT, 'dex_worth': INPUT,
    'dex_migrate': SIZES + INPUT, 'dex_make': MADE, 'dex_bulk': MADE,
    'dex_shards': INPUT, 'dex_chained': ROWS + INPUT,
}
# The same within the widest limits.
FRONTS.update({f'{name}_wide': front for name, front in list(FRONTS.items()) if front is not MADE})
PLACE = ctypes.c_void_p
# The functions over a market's accounts: what they take, and what they give.
IN_PLACE = {
    'dex_pending': ((PLACE,), None), 'dex_process': ((PLACE,) * 4, ctypes.c_uint8),
    'dex_market_check': ((PLACE,) * 2, ctypes.c_uint8), 'dex_process_checked': ((PLACE,) * 5, ctypes.c_uint8),
}
ROOM = (ctypes.POINTER(ctypes.c_char), SIZE, ctypes.POINTER(SIZE))

# What a first room has beside five times the input: enough for the accounts of a small script.
SPARE = 65536


def places() -> list[Path]:
    """Where the shared library may stand: beside this module, where pip put it; in a clone where library/build makes it, and where
    native/assemble does."""
    here = Path(__file__).resolve().parent
    return [here / 'libdex.so', here.parent / 'out' / 'libdex.so',
            here.parent.parent / 'native' / 'out' / f'{platform.machine()}-linux' / 'libdex.so']


@lru_cache(maxsize=None)
def library() -> ctypes.CDLL:
    """The shared library: the file that DAISYHOOK_LIBRARY names, else the first that stands where one may."""
    named = os.environ.get('DAISYHOOK_LIBRARY')
    # A path without a slash would be sought among the system's libraries, so it is made whole.
    path = next(filter(Path.exists, [Path(named).absolute()] if named else places()), None)
    if path is None:
        raise FileNotFoundError(f'{named or places()[1]} is not there: build it with library/build, or without the toolchain with '
                                '`native/assemble library`, or name it by DAISYHOOK_LIBRARY')
    loaded = ctypes.CDLL(str(path))
    for name, front in FRONTS.items():
        function = getattr(loaded, name)
        function.restype = ctypes.c_uint8
        function.argtypes = front + ROOM
    for name, (taken, given) in IN_PLACE.items():
        if hasattr(loaded, name):
            function = getattr(loaded, name)
            function.argtypes, function.restype = taken, given
    return loaded


def call(name: str, *front: int | bytes, room: int | None = None) -> tuple[int, bytes]:
    """Calls a function of the library, with memory for its text: the status, and the text.

    `room` is how many bytes the first try has. Where the text does not fit, the call is made again with what it needs.
    """
    function = getattr(library(), name)
    arguments: list[int | bytes] = []
    length = 0
    for given in front:
        arguments.append(given)
        if isinstance(given, bytes):
            length = len(given)
            arguments.append(length)
    size = SIZE(0)
    wanted = 5 * length + SPARE if room is None else room
    while True:
        # One byte at least, so that there is a place to point to.
        held = bytearray(max(wanted, 1))
        status = function(*arguments, ctypes.byref(ctypes.c_char.from_buffer(held)), wanted, ctypes.byref(size))
        if size.value <= wanted:
            return status, bytes(memoryview(held)[:size.value])
        wanted = size.value
