"""How far a sweep is."""
from __future__ import annotations

import sys
import time


class Progress:
    """A bar on standard error, where it is wanted, and the figures at the end."""

    def __init__(self, done: int, games: int, is_shown: bool) -> None:
        self._done, self._games, self._is_shown = done, games, is_shown
        self._played, self._since, self._last = 0, time.monotonic(), 0.0

    def add(self, count: int) -> None:
        self._done, self._played, now = self._done + count, self._played + count, time.monotonic()
        if not self._is_shown or (now - self._last < 0.2 and self._done < self._games):
            return
        self._last, rate = now, self._played / max(now - self._since, 1e-9)
        full, left = 30 * self._done // max(self._games, 1), (self._games - self._done) / rate
        bar = "#" * full + "." * (30 - full)
        end = "" if self._done < self._games else "\n"
        told = f"\r[{bar}] {self._done} of {self._games} games, {rate:.0f} a second, {left:.0f} s left "
        print(told, end=end, file=sys.stderr, flush=True)

    def figures(self) -> str:
        took = time.monotonic() - self._since
        return f"{self._played} games in {took:.2f} s, {self._played / took:.0f} a second"
