"""Finds the fewest frames to a goal, and the signals that lead there: a breadth-first search that forks games.

    python3 -m btworld.search LEVEL LETTERS GOAL [FRAMES]

LETTERS are the signals that may be switched, in each frame anew. GOAL is a pattern for the whole line of an agent in the frame's text:
`A . 8,2 [*]` is A at column 8 and row 2 with an item. Standard output gets the script, which `btworld play LEVEL --script FILE` plays;
standard error the last frame, and how many games were forked. Status 1: the goal is not reached within FRAMES frames (100 where it isn't
given).

>>> level = {"map": ["Aa.b0"], "agents": ["t"], "trees": {"t": ["move", "0"]}}
>>> found = search(Game.open(level), "ab", "A S .*", 20)
>>> found.frames, found.signals
(5, ['ab', 'b', 'b', '', ''])
>>> print(script_of(found.signals), end="")
1 on a
1 on b
2 off a
4 off b
>>> search(Game.open(level), "a", "A S .*", 20) is None
True
"""
from __future__ import annotations

import sys
from dataclasses import dataclass
from itertools import combinations
from pathlib import Path
from typing import Sequence

from .errors import BtworldError
from .game import Game
from .goal import Goal, goal_of


@dataclass
class Found:
    """A game at the goal, the signals of each frame that led there, and how many games were forked to find it."""

    game: Game
    signals: list[str]
    forks: int

    @property
    def frames(self) -> int:
        return len(self.signals)


def subsets(letters: str) -> list[str]:
    """
    >>> subsets("ab")
    ['', 'a', 'b', 'ab']
    """
    return ["".join(it) for count in range(len(letters) + 1) for it in combinations(letters, count)]


def search(start: Game, letters: str, goal: Goal, frames: int) -> Found | None:
    """The first frame at the goal, over all ways to switch these signals; None where it is not reached within so many frames."""
    choices, at_goal, forks = subsets(letters), goal_of(goal), 0
    reached: list[tuple[Game, list[str]]] = [(start, [])]
    for _ in range(frames):
        # Games of one frame and one state go on alike, so one of them is kept. Those of equal digests are compared whole.
        known: dict[int, list[Game]] = {}
        following: list[tuple[Game, list[str]]] = []
        for game, signals in reached:
            for choice in choices:
                child = game.fork()
                child.step(choice)
                forks += 1
                if at_goal(child):
                    return Found(child, [*signals, choice], forks)
                alike = known.setdefault(child.digest(), [])
                if not any(child == it for it in alike):
                    alike.append(child)
                    following.append((child, [*signals, choice]))
        reached = following
    return None


def script_of(signals: Sequence[str]) -> str:
    """The script that has these signals on, frame by frame, and leaves the last ones on."""
    lines: list[str] = []
    before: set[str] = set()
    for frame, letters in enumerate(signals, 1):
        now = set(letters)
        lines += [f"{frame} {'on' if letter in now else 'off'} {letter}\n" for letter in sorted(now ^ before)]
        before = now
    return "".join(lines)


def main(words: Sequence[str]) -> int:
    if len(words) not in (3, 4):
        sys.exit(__doc__)
    try:
        with Game.open(Path(words[0])) as game:
            found = search(game, words[1], words[2], int(words[3]) if len(words) == 4 else 100)
    except BtworldError as error:
        print(error, file=sys.stderr)
        return 2
    if not found:
        print("the goal is not reached", file=sys.stderr)
        return 1
    print(script_of(found.signals), end="")
    print(f"{found.game.text()}{found.forks} forks", file=sys.stderr)
    return 0


if __name__ == "__main__":
    sys.exit(main(sys.argv[1:]))
