"""Levels."""
from __future__ import annotations

import json
import re
import threading
from functools import cached_property, lru_cache
from typing import TYPE_CHECKING, Any, Mapping, Union

from . import _library as library
from ._buffers import Text, bytes_of, written
from .errors import BtworldError, Status, raise_for
from .view import Size

if TYPE_CHECKING:
    from .game import Game

# A level, or the bytes, the text, the path or the parsed JSON of a level file.
Source = Union["Level", Text, Mapping[str, Any]]


def fault_text(level: bytes, script: bytes = b"") -> str:
    """The line that `btworld` writes of the first fault of a level, or of a script for it; empty where there is none.

    >>> fault_text(b"{}"), fault_text(b'{"map": ["."], "agents": [], "trees": {}}')
    ('level: shape', '')
    """
    return written(library.fault_text, level, len(level), script, len(script)).decode()


def explain(level: bytes, script: bytes = b"") -> str:
    """Where the first fault of a level or a script lies, and why it is one: "LINE:COLUMN POINTER" of a level, "LINE" of a script, and the
    reason behind a line feed, as `btworld explain` tells it; empty where there is none. It needs version 2.1 of the library."""
    return written(library.explain, level, len(level), script, len(script)).decode()


def agent_number(agent: int | str) -> int:
    """The number of an agent, which is named by that or by its letter."""
    number = agent if isinstance(agent, int) else ord(agent) - ord("A") if re.fullmatch("[A-Z]", agent) else -1
    if not 0 <= number < 26:
        raise BtworldError(Status.NO_AGENT)
    return number


def raise_refusal(status: int, level: bytes, script: bytes, source: object) -> None:
    """Raise what an open with this status stands for, with the line that `btworld` writes."""
    if status < Status.LEVEL_JSON or status >= Status.STATE_TEXT:
        return raise_for(status)
    line = fault_text(level, script)
    if status == Status.LEVEL_JSON and isinstance(source, str) and "{" not in source:
        line += f" ({source!r:.80} is taken for a level's text: to open a file pass a pathlib.Path)"
    raise_for(status, line)


class Level:
    """A level without faults. It is a value: equal to any other of the same bytes, hashable, and never changed.

    >>> level = Level({"map": ["Aa0*"], "agents": ["t"], "trees": {"t": ["seq", ["move", "0"], ["take"]]}})
    >>> level
    <btworld.Level 23b25e7aee992a9a: 4 x 1 cells, 1 agent>
    >>> level.marks, level.places, level.node_names("A")
    (('.a0.',), {'0': (2, 0)}, ['seq', '  move 0', '  take'])
    >>> Level({"map": ["A0"], "agents": ["t"], "trees": {"t": ["move", "1"]}})
    Traceback (most recent call last):
    btworld.errors.LevelError: level: tree t names a place that is not on the map
    >>> Level("door.json")
    Traceback (most recent call last):
    btworld.errors.LevelError: level: json ('door.json' is taken for a level's text: to open a file pass a pathlib.Path)
    """

    source: bytes

    def __init__(self, source: Source) -> None:
        self._set(source.source if isinstance(source, Level) else bytes_of(source))
        raise_refusal(self._open(library.Handle()), self.source, b"", source)

    @classmethod
    def of(cls, source: Source) -> Level:
        """The level itself, or the one that is read from its source."""
        return source if isinstance(source, Level) else cls(source)

    def _set(self, source: bytes) -> None:
        self.source, self._lock, self._first = source, threading.Lock(), library.Handle()

    def _open(self, handle: library.Handle) -> int:
        """Put a game before its first frame into a closed handle. All are forks of one, so the level is parsed once, and the distances
        that one of them finds serve the others."""
        with self._lock:
            status = 0 if self._first.is_open else library.open_script(self._first, self.source, len(self.source), b"", 0)
            return status or library.fork(self._first, handle)

    def open(self, script: Text = b"") -> Game:
        """A game of this level before its first frame, with a script for `Game.step_script`."""
        from .game import Game

        return Game(self, script)

    @cached_property
    def digest(self) -> int:
        """The digest of the level: the same on all machines that play the same level."""
        with self.open() as game:
            return game.level_digest()

    @cached_property
    def map(self) -> Size:
        """The columns, rows and agents of the map."""
        with self.open() as game:
            return game.map

    @cached_property
    def marks(self) -> tuple[str, ...]:
        """The rows of the map without agents and items: `#`, `.`, `a` to `z` and `0` to `9`."""
        with self.open() as game:
            return tuple("".join(cell.mark for cell in row) for row in game.cells())

    @cached_property
    def places(self) -> dict[str, tuple[int, int]]:
        """Column and row of each place, by its digit."""
        return {mark: cells[0] for mark, cells in self._marked("0123456789").items()}

    @cached_property
    def doors(self) -> dict[str, list[tuple[int, int]]]:
        """Columns and rows of the doors, by the letter of their signal."""
        return self._marked(library.LETTERS)

    @cached_property
    def signals(self) -> str:
        """The letters of the signals that a door has or an agent's tree asks for, in order. No other changes a frame."""
        lines = (line.split() for agent in range(self.map.agents) for line in self.node_names(agent))
        return "".join(sorted({words[1] for words in lines if words[0] == "signal"}.union(self.doors)))

    def _marked(self, wanted: str) -> dict[str, list[tuple[int, int]]]:
        found: dict[str, list[tuple[int, int]]] = {}
        for y, row in enumerate(self.marks):
            for x, mark in enumerate(row):
                if mark in wanted:
                    found.setdefault(mark, []).append((x, y))
        return {mark: found[mark] for mark in sorted(found)}

    def node_names(self, agent: int | str) -> list[str]:
        """The names of the nodes of an agent's tree ("A", or 0), in preorder, indented by two spaces for each level: in the order of
        `Game.nodes` and `Game.memory`."""
        number = agent_number(agent)
        if number >= self.map.agents:
            raise BtworldError(Status.NO_AGENT)
        if not library.exports("node_names"):
            return self._parsed_names(number)
        with self.open() as game:
            return written(library.node_names, game._handle, number).decode().splitlines()

    def _parsed_names(self, number: int) -> list[str]:
        """What btworld_node_names tells, for libraries without it."""
        level = json.loads(self.source)
        lines: list[str] = []

        def add(node: list[Any], depth: int) -> None:
            lines.append("  " * depth + " ".join(str(it) for it in node if not isinstance(it, list)))
            for child in node:
                if isinstance(child, list):
                    add(child, depth + 1)

        add(level["trees"][level["agents"][number]], 0)
        return lines

    def __eq__(self, other: object) -> bool:
        return isinstance(other, Level) and self.source == other.source

    def __hash__(self) -> int:
        return hash(self.source)

    def __repr__(self) -> str:
        width, height, agents = self.map
        return f"<btworld.Level {self.digest:016x}: {width} x {height} cells, {agents} agent{'s' * (agents != 1)}>"

    def __copy__(self) -> Level:
        return self

    def __deepcopy__(self, _: object) -> Level:
        return self

    def __reduce__(self) -> tuple[Any, ...]:
        return _unpickled, (self.source,)


def level_of_valid(source: bytes) -> Level:
    """A level whose bytes are checked when its first game is opened."""
    level = object.__new__(Level)
    level._set(source)
    return level


@lru_cache(16)
def _unpickled(source: bytes) -> Level:
    """A process parses a level once, however often it is sent one."""
    return level_of_valid(source)
