"""A level's game, stepped frame by frame: the calls of btworld.h as a class.

>>> level = {"map": ["A.a0"], "agents": ["walker"], "trees": {"walker": ["move", "0"]}}
>>> with Game.open(level) as game:
...     game.step()
...     print(game.text(), end="")
...     ahead = game.fork()
...     for _ in range(3):
...         ahead.step("a")
...     print(ahead.rows(), ahead.agents, game.frame)
...     print(ahead.cell(2, 0), ahead.cell(3, 0).agent)
frame 1
A.a0
A F 0,0 -
['../A'] [Agent(letter='A', x=3, y=0, carrying=False, answer=<Answer.RUNNING: 2>)] 1
Cell(mark='a', item=False, agent=None) 0

One thread at a time uses a game; forks are games of their own. ctypes lets other Python threads run during a call, so games run side
by side, and threads that share a game need a lock around each call."""
from __future__ import annotations

import ctypes
from typing import Any, Iterable

from . import _library as library
from ._buffers import Text, bytes_of, written
from ._library import NOBODY
from .errors import BtworldError, LibraryTooOldError, Status, raise_for
from .level import Level, Source, agent_number, level_of_valid, raise_refusal
from .signals import Signals, mask_of
from .view import Agent, Answer, Cell, Deed, Direction, Intent, Size, View, Way

_ANSWERS: dict[str, Answer | None] = {"S": Answer.SUCCESS, "F": Answer.FAILURE, "R": Answer.RUNNING, "-": None}


class Game:
    """A game after a frame. It is closed by `close`, by `with`, or when its last reference goes.

    `copy.copy` and `copy.deepcopy` fork. A pickled game is its level, its state and its scripts: unpickled it goes on alike, but finds
    anew the distances that forks share. `==` compares states, as `same` does. A game changes, so it has no hash: take `digest()` as a key.

    >>> game = Game.open({"map": ["A.0"], "agents": ["t"], "trees": {"t": ["move", "0"]}})
    >>> copied = copy.copy(game)
    >>> copied == game, copied is game
    (True, False)
    >>> game.step()
    >>> game
    <btworld.Game of level 44b1cef2f2df3d0e after frame 1: fe06a5f477ec4bb7>
    >>> copied == game
    False
    >>> pickle.loads(pickle.dumps(game)) == game
    True
    """

    level: Level

    def __init__(self, source: Source, script: Text = b"") -> None:
        """The game of a level before its first frame, with a script for `step_script`. LevelError or ScriptError: one is refused."""
        self._set(source if isinstance(source, Level) else level_of_valid(bytes_of(source)), bytes_of(script))
        level, lines = self.level.source, self._script
        status = library.open_script(self._handle, level, len(level), lines, len(lines)) if lines else self.level._open(self._handle)
        raise_refusal(status, level, lines, source)

    def _set(self, level: Level, script: bytes, origin: tuple[str | None, int] | None = None) -> None:
        """A closed game. `origin` is that of a loaded one: the script that led to its first state, where it is known, and the frame."""
        self.level, self._script, self._origin, self._handle = level, script, origin, library.Handle()

    @classmethod
    def open(cls, source: Source, script: Text = b"") -> Game:
        """The same as Game(source, script).

        >>> Game.open({"map": ["A0"], "agents": ["t"], "trees": {"t": ["move", "1"]}})
        Traceback (most recent call last):
        btworld.errors.LevelError: level: tree t names a place that is not on the map
        """
        return cls(source, script)

    @classmethod
    def load(cls, source: Source, state: Text, script: Text = b"") -> Game:
        """The game of a level in the state that `state` wrote, with a script for `step_script`, which needs version 2.1 of the library.
        Its `script()` has only the changes since. StateError: the text is no state of this level.

        >>> level = Level({"map": ["A.0"], "agents": ["t"], "trees": {"t": ["move", "0"]}})
        >>> game = level.open()
        >>> game.step()
        >>> loaded = Game.load(level, game.state())
        >>> loaded == game, loaded.text() == game.text()
        (True, True)
        >>> Game.load(level, game.state().replace("1,0", "9,0"))
        Traceback (most recent call last):
        btworld.errors.StateError: state: no world of the level
        """
        game = object.__new__(cls)
        game._load(Level.of(source), bytes_of(state), bytes_of(script), None)
        return game

    def _load(self, level: Level, state: bytes, script: bytes, before: str | None) -> None:
        self._set(level, script)
        spelled = (level.source, len(level.source))
        if script:
            status = library.load_script(self._handle, *spelled, script, len(script), state, len(state))
        else:
            status = library.load(self._handle, *spelled, state, len(state))
        raise_refusal(status, level.source, script, None)
        self._origin = before, self.frame

    @classmethod
    def _forked(cls, level: Level, handle: library.Handle, is_loaded: bool) -> Game:
        """A fork of what a handle holds."""
        game = object.__new__(cls)
        game._set(level, b"")
        raise_for(library.fork(handle, game._handle))
        if is_loaded:
            game._origin = None, game.frame
        return game

    def step(self, signals: Signals = 0) -> None:
        """The next frame, with these signals on and all others off. Where it fails no frame is stepped."""
        raise_for(library.step(self._handle, mask_of(signals)))

    def step_script(self) -> None:
        """The next frame, with the signals of the script."""
        raise_for(library.step_script(self._handle))

    def run(self, steps: Iterable[Signals]) -> int:
        """A frame with each of these signals; returns how many frames. All signals are read before the first frame.

        >>> game = Game.open({"map": ["Aa.0"], "agents": ["t"], "trees": {"t": ["move", "0"]}})
        >>> game.run(["", "a", "", ""]), game.rows()
        (4, ['.a.A'])
        """
        masks = [mask_of(it) for it in steps]
        if library.exports("run"):
            raise_for(library.run(self._handle, (ctypes.c_uint32 * len(masks))(*masks), len(masks), ctypes.c_size_t()))
        else:
            for mask in masks:
                raise_for(library.step(self._handle, mask))
        return len(masks)

    def text(self) -> str:
        """The text of the frame. NO_FRAME: no frame was stepped yet."""
        return written(library.text, self._handle).decode()

    def rows(self) -> list[str]:
        """The rows of the map as the frame's text shows them, also before the first frame, with all doors shut: [y][x] is a cell.

        >>> game = Game.open({"map": ["A*a0"], "agents": ["t"], "trees": {"t": ["take"]}})
        >>> game.rows()
        ['A*a0']
        """
        if self.frame:
            return self.text().split("\n")[1 : 1 + self.map.height]
        rows = [list(row) for row in self.level.marks]
        view = self.view()
        for x, y in view.items:
            rows[y][x] = "*"
        for it in view.agents:
            rows[it.y][it.x] = it.letter
        return ["".join(row) for row in rows]

    def glyphs(self) -> bytes:
        """`rows` as bytes without line feeds: one for each cell, row after row."""
        return "".join(self.rows()).encode()

    def view(self) -> View:
        """All that is seen, by one call: also before the first frame, and items under agents.

        >>> game = Game.open({"map": ["A*"], "agents": ["t"], "trees": {"t": ["take"]}})
        >>> view = game.view()
        >>> view.frame, view.signals, view.agents, view.items
        (0, '', (Agent(letter='A', x=0, y=0, carrying=False, answer=None),), frozenset({(1, 0)}))
        """
        head, shown, _, *lines = self.state().splitlines()
        agents: list[Agent] = []
        items: list[tuple[int, int]] = []
        for line in lines:
            words = line.split(" ", 4)
            if words[0] == "item":
                x, _, y = words[1].partition(",")
                items.append((int(x), int(y)))
            else:
                x, _, y = words[2].partition(",")
                agents.append(Agent(words[0], int(x), int(y), words[3] == "*", _ANSWERS[words[1]]))
        return View(self.level, int(head.rsplit(" ", 1)[1]), shown[6:].replace(" ", ""), tuple(agents), frozenset(items))

    @property
    def agents(self) -> list[Agent]:
        """The agents after the frame, or before the first one, A first."""
        if not library.exports("agents"):
            return list(self.view().agents)
        states, size = (library.AgentState * 26)(), ctypes.c_size_t()
        raise_for(library.agents(self._handle, states, len(states), size))
        return [_agent(number, states[number]) for number in range(size.value)]

    def agent(self, agent: int | str) -> Agent:
        """An agent after the frame, "A" or 0 for the first. NO_FRAME: no frame was stepped yet."""
        number, state = agent_number(agent), library.AgentState()
        raise_for(library.agent(self._handle, number, state))
        return _agent(number, state)

    @property
    def map(self) -> Size:
        """The columns, rows and agents of the map."""
        width, height, agents = ctypes.c_uint32(), ctypes.c_uint32(), ctypes.c_uint32()
        raise_for(library.map(self._handle, width, height, agents))
        return Size(width.value, height.value, agents.value)

    def cell(self, x: int, y: int) -> Cell:
        """A cell after the frame, or before the first one. NO_CELL: it is off the map."""
        if not (0 <= x < 1 << 32 and 0 <= y < 1 << 32):
            raise BtworldError(Status.NO_CELL)
        state = library.CellState()
        raise_for(library.cell(self._handle, x, y, state))
        return _cell(state)

    def cells(self) -> list[list[Cell]]:
        """All cells after the frame, or before the first one: [y][x] is a cell.

        >>> game = Game.open({"map": ["A*"], "agents": ["t"], "trees": {"t": ["take"]}})
        >>> game.cells()
        [[Cell(mark='.', item=False, agent=0), Cell(mark='.', item=True, agent=None)]]
        """
        width, height, _ = self.map
        if not library.exports("cells"):
            return [[self.cell(x, y) for x in range(width)] for y in range(height)]
        states = (library.CellState * (width * height))()
        raise_for(library.cells(self._handle, states, len(states), ctypes.c_size_t()))
        return [[_cell(states[y * width + x]) for x in range(width)] for y in range(height)]

    def memory(self, agent: int | str) -> list[int]:
        """The memory of an agent after the frame, "A" or 0 for the first: a number for each node of its tree, in preorder.

        >>> game = Game.open({"map": ["A"], "agents": ["t"], "trees": {"t": ["seq*", ["wait", 3], ["wait", 2]]}})
        >>> game.step()
        >>> game.memory("A")
        [0, 1, 0]
        """
        size = ctypes.c_size_t()
        numbers = (ctypes.c_uint16 * 255)()  # a tree has no more nodes
        raise_for(library.memory(self._handle, agent_number(agent), numbers, len(numbers), size))
        return numbers[: size.value]

    def nodes(self, signals: Signals, agent: int | str) -> list[Answer]:
        """What each node of an agent's tree will answer in the next frame if that has these signals, in preorder.

        >>> game = Game.open({"map": ["A.0"], "agents": ["t"], "trees": {"t": ["seq", ["signal", "a"], ["move", "0"]]}})
        >>> [answer.name for answer in game.nodes("", "A")]
        ['FAILURE', 'FAILURE', 'NOT_TICKED']
        >>> [answer.name for answer in game.nodes("a", 0)]
        ['RUNNING', 'SUCCESS', 'RUNNING']
        """
        return [Answer(it) for it in written(library.nodes, self._handle, mask_of(signals), agent_number(agent))]

    def node_names(self, agent: int | str) -> list[str]:
        """The names of an agent's nodes, as `Level.node_names` tells them."""
        return self.level.node_names(agent)

    def why(self, signals: Signals, agent: int | str) -> str:
        """What `btworld why` writes of an agent if the next frame has these signals. It needs version 2.1 of the library."""
        return written(library.why, self._handle, mask_of(signals), agent_number(agent)).decode()

    def intent(self, signals: Signals, agent: int | str) -> Intent:
        """What an agent wants to do in the next frame if that has these signals, and whether it is granted. It needs version 2.1 of the
        library."""
        state = library.IntentState()
        raise_for(library.intent(self._handle, mask_of(signals), agent_number(agent), state))
        deed = Deed(state.deed)
        direction = Direction(state.direction) if deed == Deed.MOVE else None
        to, node = state.agent if deed == Deed.GIVE else None, state.node if deed != Deed.STAY else None
        return Intent(deed, node, state.x, state.y, direction, to, state.granted)

    def way(self, signals: Signals, agent: int | str, place: int | str) -> Way:
        """The way from an agent to a place ("0" or 0 to 9) in the next frame, if that has these signals: what a `move` of its tree gets
        there. It needs version 2.1 of the library."""
        state, digit = library.WayState(), int(place)
        if digit < 0:
            raise BtworldError(Status.NO_PLACE)
        raise_for(library.way(self._handle, mask_of(signals), agent_number(agent), digit, state))
        return Way(state.steps, Direction(state.direction))

    @property
    def signals(self) -> tuple[int, int]:
        """The signals of the frame, and those that the script has in the next one, as numbers whose bit 0 is signal a."""
        shown, scripted = ctypes.c_uint32(), ctypes.c_uint32()
        raise_for(library.signals(self._handle, shown, scripted))
        return shown.value, scripted.value

    def script(self) -> str:
        """The signals of the frames so far, as a script: together with the level a save, but not of a loaded game, which has only the
        changes since it was loaded. LONG: a signal changed after frame 9999, which no script can name.

        >>> game = Game.open({"map": ["A"], "agents": ["t"], "trees": {"t": ["wait", 1]}})
        >>> game.run(["a", "ab", "", ""])
        4
        >>> print(game.script(), end="")
        1 on a
        2 on b
        3 off a
        3 off b
        """
        lines = written(library.script, self._handle).decode()
        before, frame = self._origin or (None, 0)
        if before is None:
            return lines
        return before + "".join(it for it in lines.splitlines(True) if int(it.split(" ", 1)[0]) > frame)

    @property
    def has_whole_script(self) -> bool:
        """Whether `script` tells all frames from the first on: not so of a game that was loaded from a state."""
        return self._origin is None or self._origin[0] is not None

    @property
    def frame(self) -> int:
        """How many frames were stepped."""
        frame = ctypes.c_uint32()
        raise_for(library.frame(self._handle, frame))
        return frame.value

    def digest(self) -> int:
        """The digest of the state: games in the same state have the same."""
        digest = ctypes.c_uint64()
        raise_for(library.digest(self._handle, digest))
        return digest.value

    def level_digest(self) -> int:
        """The digest of the level, the same at each frame."""
        digest = ctypes.c_uint64()
        raise_for(library.level_digest(self._handle, digest))
        return digest.value

    def state(self) -> str:
        """The state as lines of text: to be loaded, or compared with another machine's by `diff`.

        >>> game = Game.open({"map": ["A*0"], "agents": ["t"], "trees": {"t": ["move", "0"]}})
        >>> print(game.state(), end="")
        btworld state 1 level 80390d2489972cff frame 0
        shown
        next
        A - 0,0 - 0
        item 1,0
        """
        return written(library.state, self._handle).decode()

    def fork(self) -> Game:
        """The same game at the same frame, stepped apart from this one."""
        copy = object.__new__(type(self))
        copy.__dict__.update(self.__dict__, _handle=library.Handle())
        raise_for(library.fork(self._handle, copy._handle))
        return copy

    def same(self, other: Game) -> bool:
        """Whether both are in the same state."""
        same = ctypes.c_bool(True)
        if other is not self:
            raise_for(library.same(self._handle, other._handle, same))
        return same.value

    @property
    def is_open(self) -> bool:
        return bool(self._handle.is_open)

    def close(self) -> None:
        """Free the memory. A closed game stays closed; all other calls then raise CLOSED."""
        library.close(self._handle)

    def __enter__(self) -> Game:
        return self

    def __exit__(self, *_: object) -> None:
        self.close()

    def __eq__(self, other: object) -> bool:
        if not isinstance(other, Game):
            return NotImplemented
        return other is self or (self.is_open and other.is_open and self.same(other))

    __hash__ = None  # type: ignore[assignment]

    def __repr__(self) -> str:
        if not self.is_open:
            return "<btworld.Game, closed>"
        return f"<btworld.Game of level {self.level_digest():016x} after frame {self.frame}: {self.digest():016x}>"

    def __copy__(self) -> Game:
        return self.fork()

    def __deepcopy__(self, _: object) -> Game:
        return self.fork()

    def __reduce__(self) -> tuple[Any, ...]:
        if self._script and not library.exports("load_script"):
            raise LibraryTooOldError("a game with a script beside it can be pickled with version 2.1 of the library")
        return _unpickled, (type(self), self.level, self.state(), self._script, self._told())

    def _told(self) -> str | None:
        """The whole script so far, or None where none can tell it."""
        try:
            return self.script() if self.has_whole_script else None
        except BtworldError as error:
            if error.status != Status.LONG:
                raise
            return None


def _unpickled(kind: type[Game], level: Level, state: str, script: bytes, before: str | None) -> Game:
    game = object.__new__(kind)
    game._load(level, state.encode(), script, before)
    return game


def _agent(number: int, state: library.AgentState) -> Agent:
    answer = None if state.status == Answer.NOT_TICKED else Answer(state.status)
    return Agent(chr(ord("A") + number), state.x, state.y, state.carrying, answer)


def _cell(state: library.CellState) -> Cell:
    return Cell(chr(state.mark), state.item, state.agent if state.agent != NOBODY else None)
