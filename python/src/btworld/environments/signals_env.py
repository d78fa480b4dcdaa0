"""A level as an environment in which each signal is a player."""
from __future__ import annotations

from typing import Any, Callable, ClassVar

from ..game import Game
from ..goal import Goal
from ..level import Level, Source
from ..view import View
from . import spaces
from ._bases import ParallelEnv
from .play import METADATA, Play, sparse


class SignalsEnv(ParallelEnv):  # type: ignore[misc]
    """Each signal of `letters` is a player, named by its letter, whose action is 0 for off or 1 for on. All see the whole frame. All get
    the reward, or each its own where `reward` returns a dictionary. All end together.

    >>> env = SignalsEnv({"map": ["Aa.b0"], "agents": ["t"], "trees": {"t": ["move", "0"]}}, goal="A . 4,0 -")
    >>> observations, infos = env.reset(seed=1)
    >>> env.agents
    ['a', 'b']
    >>> while env.agents:
    ...     observations, rewards, terminations, truncations, infos = env.step({it: 1 for it in env.agents})
    >>> rewards, terminations, truncations, infos["a"]["frame"]
    ({'a': 1.0, 'b': 1.0}, {'a': True, 'b': True}, {'a': False, 'b': False}, 4)
    """

    metadata: ClassVar[dict[str, Any]] = {**METADATA, "name": "btworld_signals_v0", "is_parallelizable": True}

    def __init__(
        self,
        level: Source,
        letters: str | None = None,
        *,
        goal: Goal = None,
        reward: Callable[[View, View, bool], float | dict[str, float]] = sparse,
        frames: int = 100,
        observe: str = "planes",
        render_mode: str | None = None,
    ) -> None:
        self._play, self._reward, self.render_mode = Play(level, letters, goal, frames, observe, render_mode), reward, render_mode
        self.possible_agents: list[str] = list(self._play.letters)
        self.agents: list[str] = []
        self.observation_spaces: dict[str, Any] = {it: self._play.space for it in self.possible_agents}
        self.action_spaces: dict[str, Any] = {it: spaces.Discrete(2) for it in self.possible_agents}

    @property
    def level(self) -> Level:
        return self._play.level

    @property
    def game(self) -> Game:
        """The game of the episode: to look at, to fork, or to report."""
        return self._play.running()

    def observation_space(self, agent: str) -> Any:
        return self.observation_spaces[agent]

    def action_space(self, agent: str) -> Any:
        return self.action_spaces[agent]

    def reset(self, seed: int | None = None, options: dict[str, Any] | None = None) -> tuple[dict[str, Any], dict[str, Any]]:
        self._play.begin(options)
        self.agents = list(self.possible_agents)
        return {it: self._play.observation() for it in self.agents}, {it: self._play.info(False) for it in self.agents}

    def step(
        self, actions: dict[str, Any]
    ) -> tuple[dict[str, Any], dict[str, float], dict[str, bool], dict[str, bool], dict[str, dict[str, Any]]]:
        players = self.agents
        if not players:
            return {}, {}, {}, {}, {}
        if set(actions) != set(players) or not all(self.action_spaces[it].contains(actions[it]) for it in players):
            raise ValueError(f"each of {', '.join(players)} has an action, 0 or 1, and not {actions!r}")
        before, at_goal, is_over = self._play.step([int(actions[it]) == 1 for it in players])
        given = self._reward(before, self._play.view, at_goal)
        rewards = {it: float(given[it] if isinstance(given, dict) else given) for it in players}
        if at_goal or is_over:
            self.agents = []
        observations = {it: self._play.observation() for it in players}
        infos = {it: self._play.info(at_goal) for it in players}
        return observations, rewards, dict.fromkeys(players, at_goal), dict.fromkeys(players, is_over), infos

    def state(self) -> Any:
        """What all players see: the whole frame."""
        self._play.running()
        return self._play.observation()

    def render(self) -> Any:
        return self._play.render()

    def close(self) -> None:
        self._play.close()
