"""Many games of one level at once."""
from __future__ import annotations

import ctypes
import weakref
from concurrent.futures import ThreadPoolExecutor
from typing import Any, Callable, Iterable, NamedTuple

from . import _library as library
from .errors import LibraryTooOldError, raise_for
from .game import Game
from .level import Level, Source
from .signals import mask_of

try:
    import numpy
except ImportError:
    numpy = None  # type: ignore[assignment]


class Look(NamedTuple):
    """What `Games.look_all` tells, in numpy's structured arrays: `cells` [game, y, x] with the fields mark, item and agent (255 for nobody),
    and `agents` [game, agent] with x, y, carrying and status (an Answer; NOT_TICKED before the first frame)."""

    cells: Any
    agents: Any


class Games:
    """Many games of one level, stepped and looked at by one call of the library each, on several threads if wanted.

    It needs numpy, and version 2.1 of the library.

    >>> level = {"map": ["Aa.0"], "agents": ["t"], "trees": {"t": ["move", "0"]}}
    >>> games = Games(level, 3)
    >>> for _ in range(3):
    ...     games.step_all([0, 1, 0])
    >>> games.look_all().agents["x"].tolist()
    [[0], [3], [0]]
    >>> games.reset([1])
    >>> games.look_all().agents["x"].tolist(), games.game(1).frame
    ([[0], [0], [0]], 0)
    """

    def __init__(self, source: Source, count: int, threads: int = 1) -> None:
        missing = [it for it in ("step_all", "look_all") if not library.exports(it)]
        if missing:
            library_version = library.dotted(library.version())
            raise LibraryTooOldError(f"many games at once need version 2.1 of the library; {library.PATH} is version {library_version}")
        if numpy is None:
            raise ImportError("many games at once need numpy")
        if min(count, threads) < 1:
            raise ValueError("there is at least one game, and one thread")
        self.level = Level.of(source)
        self._handles, self._is_loaded = (library.Handle * count)(), [False] * count
        self._close = weakref.finalize(self, _close_all, self._handles)
        self._cell = numpy.dtype([("mark", "u1"), ("item", "?"), ("agent", "u1")])
        self._agent = numpy.dtype([("x", "u4"), ("y", "u4"), ("carrying", "?"), ("status", "u1")], align=True)
        cuts = [count * part // threads for part in range(threads + 1)]
        self._parts = [(first, end - first) for first, end in zip(cuts, cuts[1:]) if end > first]
        self._pool = ThreadPoolExecutor(len(self._parts)) if len(self._parts) > 1 else None
        self.reset()

    def __len__(self) -> int:
        return len(self._handles)

    def reset(self, which: Iterable[int] | None = None, state: str | None = None) -> None:
        """Begin these games again, or all: before the first frame, or in a state that `Game.state` wrote."""
        start = None if state is None else Game.load(self.level, state)
        for index in range(len(self)) if which is None else which:
            handle = self._handles[index]
            self._is_loaded[index] = start is not None
            library.close(handle)
            raise_for(self.level._open(handle) if start is None else library.fork(start._handle, handle))

    def step_all(self, signals: Any) -> None:
        """The next frame of each game. `signals` is an array of numbers whose bit 0 is signal a, one for each game, or the signals of all.
        After a failure some games may have been stepped and others not."""
        if isinstance(signals, (str, int)):
            masks = numpy.full(len(self), mask_of(signals), "u4")
        else:
            masks = numpy.ascontiguousarray(signals, "u4")
        if masks.shape != (len(self),) or (masks >> len(library.LETTERS)).any():
            raise ValueError(f"signals are {len(self)} numbers of bits 0 (a) to 25 (z)")
        at = masks.ctypes.data
        size = ctypes.sizeof(library.Handle)

        def part(first: int, count: int) -> int:
            return library.step_all(ctypes.byref(self._handles, first * size), count, at + 4 * first, count, ctypes.c_size_t())

        self._do(part)

    def look_all(self) -> Look:
        """What is seen of all games after their frames, or before the first ones."""
        width, height, agents = self.level.map
        found = Look(numpy.empty((len(self), height, width), self._cell), numpy.empty((len(self), agents), self._agent))
        cells, states = found.cells.ctypes.data, found.agents.ctypes.data
        size, area = ctypes.sizeof(library.Handle), width * height

        def part(first: int, count: int) -> int:
            own_cells, own_states = cells + first * area * self._cell.itemsize, states + first * agents * self._agent.itemsize
            handles = ctypes.byref(self._handles, first * size)
            return library.look_all(handles, count, own_cells, count * area, own_states, count * agents)

        self._do(part)
        return found

    def game(self, index: int) -> Game:
        """A fork of one of the games, which is no longer among them."""
        return Game._forked(self.level, self._handles[index], self._is_loaded[index])

    def close(self) -> None:
        """Free the memory of all games."""
        if self._pool is not None:
            self._pool.shutdown()
        self._close()

    def __enter__(self) -> Games:
        return self

    def __exit__(self, *_: object) -> None:
        self.close()

    def _do(self, part: Callable[[int, int], int]) -> None:
        """Call for each part of the games, on its own thread; ctypes lets them run side by side."""
        if self._pool is None:
            raise_for(part(*self._parts[0]))
        else:
            for status in [*self._pool.map(lambda it: part(*it), self._parts)]:
                raise_for(status)


def _close_all(handles: Any) -> None:
    for handle in handles:
        library.close(handle)
