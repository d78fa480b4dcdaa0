"""What SignalEnv and SignalsEnv share: a level's game, and what is observed of it."""
from __future__ import annotations

from typing import Any, Callable

from .._library import LETTERS
from ..game import Game
from ..goal import Goal, goal_of
from ..level import Level, Source
from ..view import View
from . import spaces
from .spaces import array

try:
    import numpy
except ImportError:
    numpy = None  # type: ignore[assignment]

Reward = Callable[[View, View, bool], float]
PLANES = ("wall", "shut door", "open door", "place", "item", "agent", "carrying", "answer")
WALL, SHUT, OPEN, PLACE, ITEM, AGENT, CARRYING, ANSWER = range(len(PLANES))
METADATA: dict[str, Any] = {"render_modes": ["ansi", "rgb_array"], "render_fps": 5}
_PIXELS = 8  # the side of a cell in a picture
_COLOURS = {"#": (60, 60, 60), "*": (230, 180, 40), "/": (190, 225, 190)}


def sparse(before: View, now: View, at_goal: bool) -> float:
    """1 at the goal, and -0.01 for each frame that doesn't reach it."""
    return 1.0 if at_goal else -0.01


def letters_of_level(level: Level, letters: str | None) -> str:
    """The letters that are switched: those that are given, else those that the level asks for."""
    chosen = level.signals if letters is None else letters
    if not chosen or len(set(chosen)) < len(chosen) or not set(chosen) <= set(LETTERS):
        raise ValueError(f"letters are some of a to z, each once, and not {chosen!r}")
    return chosen


def planes_space(level: Level) -> Any:
    return spaces.Box(0, 255, (len(PLANES), level.map.height, level.map.width), "uint8" if numpy is None else numpy.uint8)


def ground_of(level: Level) -> bytearray:
    """The planes of what never changes: walls and places."""
    width, height, _ = level.map
    ground = bytearray(len(PLANES) * width * height)
    for at, mark in enumerate("".join(level.marks)):
        if mark == "#":
            ground[WALL * width * height + at] = 1
        elif mark.isdigit():
            ground[PLACE * width * height + at] = int(mark) + 1
    return ground


class Play:
    """An episode: a game, its goal and its last frame."""

    def __init__(self, level: Source, letters: str | None, goal: Goal, frames: int, observe: str, render_mode: str | None) -> None:
        self.level = Level.of(level)
        self.letters = letters_of_level(self.level, letters)
        if observe not in ("planes", "all"):
            raise ValueError(f'observe is "planes" or "all", and not {observe!r}')
        if render_mode not in (None, *METADATA["render_modes"]):
            raise ValueError(f"render_mode is one of {METADATA['render_modes']}, and not {render_mode!r}")
        if frames < 1:
            raise ValueError("an episode has at least one frame")
        self.at_goal, self.frames, self.observe, self.render_mode = goal_of(goal), frames, observe, render_mode
        self.game: Game | None = None
        self._ground = ground_of(self.level)
        width = self.level.map.width
        self._doors = [(mark, y * width + x) for mark, cells in self.level.doors.items() for x, y in cells]
        self.space = planes_space(self.level)
        if observe == "all":
            self._nodes = sum(len(self.level.node_names(it)) for it in range(self.level.map.agents))
            memory = spaces.Box(0, 1000, (self._nodes,), "uint16" if numpy is None else numpy.uint16)
            self.space = spaces.Dict({"planes": self.space, "signals": spaces.MultiBinary(len(self.letters)), "memory": memory})

    def begin(self, options: dict[str, Any] | None) -> None:
        """A new episode; the old game goes on where options refuse it."""
        state = (options or {}).get("state")
        game = self.level.open() if state is None else Game.load(self.level, state)
        self.close()
        self.game = game
        self.first_frame, self.view = game.frame, game.view()

    def running(self) -> Game:
        if self.game is None:
            raise RuntimeError("reset comes first")
        return self.game

    def step(self, bits: list[bool]) -> tuple[View, bool, bool]:
        """A frame. Returns what was seen before it, whether the goal is reached, and whether the episode has had all its frames."""
        game = self.running()
        game.step([it for it, on in zip(self.letters, bits) if on])
        before, self.view = self.view, game.view()
        return before, self.at_goal(game), self.view.frame - self.first_frame >= self.frames

    def info(self, at_goal: bool) -> dict[str, Any]:
        return {"frame": self.view.frame, "signals": self.view.signals, "goal": at_goal}

    def observation(self) -> Any:
        width, height, _ = self.level.map
        room, cells = bytearray(self._ground), width * height
        for letter, at in self._doors:
            room[(OPEN if letter in self.view.signals else SHUT) * cells + at] = ord(letter) - ord("a") + 1
        for x, y in self.view.items:
            room[ITEM * cells + y * width + x] = 1
        for number, it in enumerate(self.view.agents, 1):
            at = it.y * width + it.x
            room[AGENT * cells + at], room[CARRYING * cells + at] = number, it.carrying
            room[ANSWER * cells + at] = 0 if it.answer is None else it.answer + 1
        planes = array(room, (len(PLANES), height, width), "uint8")
        if self.observe == "planes":
            return planes
        game = self.running()
        signals = array(bytearray(it in self.view.signals for it in self.letters), (len(self.letters),), "int8")
        numbers = (it for k in range(len(self.view.agents)) for it in game.memory(k))
        memory = array(bytearray(b"".join(it.to_bytes(2, "little") for it in numbers)), (self._nodes,), "uint16")
        return {"planes": planes, "signals": signals, "memory": memory}

    def render(self) -> Any:
        if self.render_mode is None or self.game is None:
            return None
        rows = self.game.rows()
        if self.render_mode == "ansi":
            return self.game.text() if self.game.frame else "frame 0\n" + "".join(row + "\n" for row in rows)
        picture = bytearray()
        for row in rows:
            picture += b"".join(bytes(_colour(it)) * _PIXELS for it in row) * _PIXELS
        return array(picture, (len(rows) * _PIXELS, len(rows[0]) * _PIXELS, 3), "uint8")

    def close(self) -> None:
        if self.game is not None:
            self.game.close()
        self.game = None


def _colour(glyph: str) -> tuple[int, int, int]:
    if glyph.isupper():
        number = ord(glyph) - ord("A")
        return 40 + number * 83 % 160, 40 + number * 47 % 160, 220 - number * 29 % 120
    return _COLOURS.get(glyph) or ((170, 60, 60) if glyph.islower() else (200, 215, 240) if glyph.isdigit() else (245, 245, 245))
