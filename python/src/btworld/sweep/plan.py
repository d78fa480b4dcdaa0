"""What is played in a sweep."""
from __future__ import annotations

import json
import random
from importlib import import_module
from typing import Any, Callable, NamedTuple, Sequence

from ..game import Game
from ..goal import goal_of
from ..level import Level
from ..report import Report
from ..signals import Signals

Policy = Callable[[Game, str, random.Random], Signals]
Judge = Callable[[Game, bool], str]


class Plan(NamedTuple):
    """Together with a number it determines a game from its first frame to its last."""

    level: Level
    letters: str
    first: int
    games: int
    frames: int
    goal: str | None = None
    policy: str = "random"
    odd: str = "never"
    check: bool = False
    seed: int = 0

    def head(self) -> str:
        """The first line of its results, which tells them from those of another plan."""
        return json.dumps({"btworld sweep": 1, **self._asdict(), "level": f"{self.level.digest:016x}"}) + "\n"

    def numbers(self, part: int = 1, parts: int = 1) -> range:
        """The numbers of the games of one of so many parts, counted from 1."""
        return range(self.first + part - 1, self.first + self.games, parts)


def policy_of(name: str) -> Policy:
    """The policy that is named: `random`, `random:CHANCE`, `idle`, or a function by `MODULE:FUNCTION`."""
    kind, _, chance = name.partition(":")
    if kind == "idle":
        return lambda game, letters, dice: 0
    if kind != "random":
        policy: Policy = _imported(name)
        return policy
    often = float(chance or 0.2)

    def turn(game: Game, letters: str, dice: random.Random) -> int:
        # Of random.Random only random() is promised to give the same numbers in all versions of Python.
        now = game.signals[0]
        return now ^ 1 << ord(letters[int(dice.random() * len(letters))]) - ord("a") if dice.random() < often else now

    return turn


def judge_of(name: str) -> Judge:
    """The function that says why a game is odd, empty where it isn't: `goal`, `missed`, `never`, or a function by `MODULE:FUNCTION`."""
    if name in ("goal", "missed", "never"):
        return lambda game, at_goal: name if at_goal == (name == "goal") and name != "never" else ""
    judge = _imported(name)
    return lambda game, at_goal: str(judge(game) or "")


def _imported(name: str) -> Any:
    module, colon, function = name.partition(":")
    if not colon:
        raise ValueError(f"{name!r} is none of the known names, and not of the form MODULE:FUNCTION")
    return getattr(import_module(module), function)


def play(plan: Plan, numbers: Sequence[int]) -> list[str]:
    """The lines of these games. The same plan and number make the same line on every machine."""
    policy, at_goal, judge = policy_of(plan.policy), goal_of(plan.goal), judge_of(plan.odd)
    width = len(str(plan.first + plan.games - 1))
    lines: list[str] = []
    for number in numbers:
        dice, reached = random.Random(f"{plan.seed} {number}"), False
        with plan.level.open() as game:
            for _ in range(plan.frames):
                game.step(policy(game, plan.letters, dice))
                reached = at_goal(game)
                if reached:
                    break
            result = {"frames": game.frame, "goal": reached, "digest": f"{game.digest():016x}"}
            why = judge(game, reached) or (Report.of(game, "").difference() if plan.check else "")
            if why:
                result.update(odd=why, script=game.script())
        # Padded to one width, the lines sort by number as text, and the padding leaves it a number of JSON.
        lines.append(f'{{"game": {number:>{width}}, {json.dumps(result)[1:]}\n')
    return lines
