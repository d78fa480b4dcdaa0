"""Goals: when a game has reached what is wanted of it."""
from __future__ import annotations

import re
from typing import Callable, Union

from .game import Game

# A pattern for the line of an agent, or a function of the game; None is never reached.
Goal = Union[str, Callable[[Game], bool], None]


class LineGoal:
    """Whether the pattern matches the whole line that the frame's text has of some agent: letter, answer, cell and `*` or `-`.

    `A . 8,2 [*]` is reached when A is at column 8 and row 2 and carries an item, `A S .*` when A's tree answers Success. Before the first
    frame no goal is reached."""

    def __init__(self, pattern: str) -> None:
        self.pattern = re.compile(pattern)

    def __call__(self, game: Game) -> bool:
        if game.frame == 0:
            return False
        return any(map(self.pattern.fullmatch, game.text().splitlines()[1 + game.map.height :]))


def goal_of(goal: Goal) -> Callable[[Game], bool]:
    if isinstance(goal, str):
        return LineGoal(goal)
    return _never if goal is None else goal


def _never(_: Game) -> bool:
    return False
