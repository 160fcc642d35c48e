"""What the gateway says on standard error, of which nothing hangs on whether anybody reads it."""

from __future__ import annotations

import contextlib
import sys
import time


def say(text: str) -> None:
    """Says something to who started it, where that can be written."""
    if sys.stderr is not None:
        with contextlib.suppress(OSError, ValueError):
            print(f'serve: {text}', file=sys.stderr, flush=True)


class Seldom:
    """Says what clients can bring about as often as they like: once a second, and how often it was since."""

    def __init__(self, pause: float = 1.0) -> None:
        self._pause, self._next, self._left_out = pause, 0.0, 0

    def say(self, text: str) -> None:
        now = time.monotonic()
        if now < self._next:
            self._left_out += 1
            return
        say(f'{text} (and {self._left_out} such before)' if self._left_out else text)
        self._next, self._left_out = now + self._pause, 0
