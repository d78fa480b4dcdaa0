"""A level as an environment with one learner."""
from __future__ import annotations

from typing import Any, ClassVar

from ..game import Game
from ..goal import Goal
from ..level import Level, Source
from . import spaces
from ._bases import Env
from .play import METADATA, Play, Reward, sparse


class SignalEnv(Env):  # type: ignore[misc]
    """One learner switches the signals of `letters`, which are those that the level asks for where none are given.

    An action is a bit for each letter, or with `actions="number"` a number whose bit 0 is the first letter. The episode is terminated at
    the `goal`, a pattern for the line of an agent (btworld.LineGoal) or a function of the game, and truncated after `frames`. `reward` is a
    function of what was seen before the action, what is seen after it, and whether the goal is reached. Nothing is random: a seed sets
    `np_random`, which nothing here draws from. `reset(options={"state": text})` begins in a state that `Game.state` wrote. A copy of an
    environment, or an unpickled one, goes on from the same frame by itself."""

    metadata: ClassVar[dict[str, Any]] = METADATA

    def __init__(
        self,
        level: Source,
        letters: str | None = None,
        *,
        goal: Goal = None,
        reward: Reward = sparse,
        frames: int = 100,
        actions: str = "bits",
        observe: str = "planes",
        render_mode: str | None = None,
    ) -> None:
        self._play, self._reward, self.render_mode = Play(level, letters, goal, frames, observe, render_mode), reward, render_mode
        count = len(self._play.letters)
        if actions not in ("bits", "number"):
            raise ValueError(f'actions is "bits" or "number", and not {actions!r}')
        self.action_space: Any = spaces.MultiBinary(count) if actions == "bits" else spaces.Discrete(1 << count)
        self.observation_space: Any = self._play.space

    @property
    def level(self) -> Level:
        return self._play.level

    @property
    def letters(self) -> str:
        return self._play.letters

    @property
    def game(self) -> Game:
        """The game of the episode: to look at, to fork, or to report."""
        return self._play.running()

    def reset(self, *, seed: int | None = None, options: dict[str, Any] | None = None) -> tuple[Any, dict[str, Any]]:
        super().reset(seed=seed)
        self._play.begin(options)
        return self._play.observation(), self._play.info(False)

    def step(self, action: Any) -> tuple[Any, float, bool, bool, dict[str, Any]]:
        before, at_goal, is_over = self._play.step(self._bits(action))
        reward = float(self._reward(before, self._play.view, at_goal))
        return self._play.observation(), reward, at_goal, is_over, self._play.info(at_goal)

    def _bits(self, action: Any) -> list[bool]:
        count = len(self.letters)
        if isinstance(self.action_space, spaces.Discrete):
            if not self.action_space.contains(action):
                raise ValueError(f"an action is a number from 0 to {(1 << count) - 1}, and not {action!r}")
            return [bool(int(action) >> k & 1) for k in range(count)]
        bits = list(action)
        if len(bits) != count or not all(it in (0, 1) for it in bits):
            raise ValueError(f"an action is {count} times 0 or 1, and not {action!r}")
        return [it == 1 for it in bits]

    def render(self) -> Any:
        return self._play.render()

    def close(self) -> None:
        self._play.close()
