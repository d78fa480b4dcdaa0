"""What is seen of a game: plain values."""
from __future__ import annotations

from enum import IntEnum
from typing import TYPE_CHECKING, NamedTuple

if TYPE_CHECKING:
    from .level import Level


class Answer(IntEnum):
    """What an agent's tree, or a node of it, answered."""

    SUCCESS = 0
    FAILURE = 1
    RUNNING = 2
    NOT_TICKED = 3  # Game.nodes only: the tick doesn't reach this node


class Deed(IntEnum):
    """What an agent wants to do in a frame."""

    STAY = 0
    MOVE = 1
    TAKE = 2
    DROP = 3
    GIVE = 4


class Direction(IntEnum):
    """The first step of a way. North leads to the row above."""

    NORTH = 0
    EAST = 1
    SOUTH = 2
    WEST = 3
    HERE = 4  # no step: the agent stands on the place
    NO_WAY = 5  # Game.way only: no walk leads there


class Intent(NamedTuple):
    """What an agent wants to do: the number in preorder of the node that wants it, None where the agent stays; the cell onto which it
    moves, that of the agent to whom it gives, or else its own; in which direction, for a move; to whom, 0 for A, for a gift; and whether
    the frame does it."""

    deed: Deed
    node: int | None
    x: int
    y: int
    direction: Direction | None
    agent: int | None
    granted: bool


class Way(NamedTuple):
    """A shortest walk: how many steps it has, and the first one."""

    steps: int
    direction: Direction


class Agent(NamedTuple):
    """An agent after a frame. `x` counts columns and `y` rows, from 0 at the top left. `answer` is None before the first frame."""

    letter: str
    x: int
    y: int
    carrying: bool
    answer: Answer | None


class Cell(NamedTuple):
    """A cell of the map: its mark in the level (`#`, `.`, a door's letter whether open or shut, a place's digit), whether an item
    lies there, and the number of the agent that stands there, 0 for A."""

    mark: str
    item: bool
    agent: int | None


class Size(NamedTuple):
    """Columns and rows of a map, and how many agents stand on it."""

    width: int
    height: int
    agents: int


class View(NamedTuple):
    """All that is seen after a frame, or before the first one: the signals that are on, the agents, and where items lie."""

    level: Level
    frame: int
    signals: str
    agents: tuple[Agent, ...]
    items: frozenset[tuple[int, int]]
