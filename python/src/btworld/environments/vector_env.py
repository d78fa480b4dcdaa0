"""Many episodes of one level at once."""
from __future__ import annotations

from typing import Any, Callable, ClassVar, NamedTuple, Union

from ..game import Game
from ..games import Games
from ..goal import LineGoal
from ..level import Level, Source
from . import spaces
from ._bases import AUTORESET, VectorEnv
from .play import AGENT, ANSWER, CARRYING, ITEM, OPEN, PLANES, SHUT, ground_of, letters_of_level, planes_space

try:
    import numpy
except ImportError:
    numpy = None  # type: ignore[assignment]


class BatchView(NamedTuple):
    """All that is seen of all episodes: `frames` and `signals` (numbers whose bit 0 is signal a) are arrays of one number for each,
    `cells` and `agents` those of btworld.games.Look."""

    level: Level
    frames: Any
    signals: Any
    cells: Any
    agents: Any


BatchGoal = Union[str, Callable[[BatchView], Any], None]
BatchReward = Callable[[BatchView, BatchView, Any], Any]


def batch_sparse(before: BatchView, now: BatchView, at_goal: Any) -> Any:
    """1 at the goal, and -0.01 for each frame that doesn't reach it."""
    return numpy.where(at_goal, 1.0, -0.01)


class LineTable:
    """LineGoal over arrays: which of the lines that an agent can have match the pattern is looked up, not matched."""

    def __init__(self, pattern: str, level: Level) -> None:
        fullmatch, (width, height, agents) = LineGoal(pattern).pattern.fullmatch, level.map
        lines = (
            fullmatch(f"{chr(ord('A') + agent)} {answer} {x},{y} {mark}") is not None
            for agent in range(agents) for mark in "-*" for answer in "SFR" for y in range(height) for x in range(width)
        )  # fmt: skip
        self._table = numpy.fromiter(lines, bool).reshape(agents, 2, 3, height, width)
        self._numbers = numpy.arange(agents)

    def __call__(self, view: BatchView) -> Any:
        agents = view.agents
        return self._table[self._numbers, agents["carrying"].astype("u1"), agents["status"], agents["y"], agents["x"]].any(axis=1)


class VectorSignalEnv(VectorEnv):  # type: ignore[misc]
    """`num_envs` episodes of SignalEnv, stepped by one call: Gymnasium's vector API. It needs numpy, and version 2.1 of the library.

    `goal` is a pattern for the line of an agent, or a function of a BatchView that returns an array of truths; `reward` a function of the
    views before and after the actions and of that array, which returns an array. An episode that has ended begins again with the next
    step, whose action it doesn't play and whose reward is 0 (AutoresetMode.NEXT_STEP). Observations are SignalEnv's planes, one array
    [episode, plane, y, x]. With `threads` the games are shared out among so many threads.

    >>> level = {"map": ["A.a0"], "agents": ["t"], "trees": {"t": ["move", "0"]}}
    >>> envs = VectorSignalEnv(level, 2, goal="A S .*", frames=5)
    >>> observations, infos = envs.reset(seed=1)
    >>> for _ in range(4):
    ...     observations, rewards, terminations, truncations, infos = envs.step([[0], [1]])
    >>> observations.shape, rewards.tolist(), terminations.tolist(), truncations.tolist()
    ((2, 8, 1, 4), [-0.01, 1.0], [False, True], [False, False])
    >>> observations, rewards, terminations, truncations, infos = envs.step([[0], [1]])
    >>> rewards.tolist(), truncations.tolist(), infos["frame"].tolist()
    ([-0.01, 0.0], [True, False], [5, 0])
    """

    metadata: ClassVar[dict[str, Any]] = {"render_modes": [], **AUTORESET}
    render_mode: str | None = None

    def __init__(
        self,
        level: Source,
        num_envs: int,
        letters: str | None = None,
        *,
        goal: BatchGoal = None,
        reward: BatchReward = batch_sparse,
        frames: int = 100,
        actions: str = "bits",
        threads: int = 1,
    ) -> None:
        self._games = Games(level, num_envs, threads)
        self.level, self.num_envs = self._games.level, num_envs
        self.letters = letters_of_level(self.level, letters)
        if actions not in ("bits", "number"):
            raise ValueError(f'actions is "bits" or "number", and not {actions!r}')
        if frames < 1:
            raise ValueError("an episode has at least one frame")
        self._at_goal = LineTable(goal, self.level) if isinstance(goal, str) else goal
        self._reward, self._frames, count = reward, frames, len(self.letters)
        is_bits, (width, height, _) = actions == "bits", self.level.map
        self.single_action_space: Any = spaces.MultiBinary(count) if is_bits else spaces.Discrete(1 << count)
        self.action_space: Any = spaces.MultiBinary((num_envs, count)) if is_bits else spaces.MultiDiscrete([1 << count] * num_envs)
        self.single_observation_space: Any = planes_space(self.level)
        self.observation_space: Any = spaces.Box(0, 255, (num_envs, len(PLANES), height, width), numpy.uint8)
        self._bits = numpy.array([1 << ord(it) - ord("a") for it in self.letters], "u4")
        self._ground = numpy.frombuffer(ground_of(self.level), "u1").reshape(1, len(PLANES), height, width)
        doors = [(ord(mark) - ord("a"), y, x) for mark, cells in self.level.doors.items() for x, y in cells]
        self._door_signals, self._door_rows, self._door_columns = numpy.array(doors, "u4").reshape(-1, 3).T
        self._each = numpy.arange(num_envs)[:, None]
        self._view: BatchView | None = None

    def game(self, index: int) -> Game:
        """A fork of the game of an episode: to look at, or to look ahead."""
        return self._games.game(index)

    def reset(self, *, seed: Any = None, options: dict[str, Any] | None = None) -> tuple[Any, dict[str, Any]]:
        """Begin all episodes: before the first frame, or with `options={"state": text}` in a state that `Game.state` wrote. Nothing is
        random, so a seed changes nothing."""
        state = (options or {}).get("state")
        self._games.reset(state=state)
        self._state = state
        with self.game(0) as game:
            self._first = game.frame, game.signals[0]
        full = numpy.full(self.num_envs, 0, "u4")
        self._view = self._seen(full + numpy.uint32(self._first[0]), full + numpy.uint32(self._first[1]))
        self._ended = numpy.zeros(self.num_envs, bool)
        return self._observation(self._view), self._infos(self._view, self._ended)

    def step(self, actions: Any) -> tuple[Any, Any, Any, Any, dict[str, Any]]:
        if self._view is None:
            raise RuntimeError("reset comes first")
        before, begun = self._view, self._ended
        masks = self._masks(actions)
        self._games.step_all(masks)
        frames = before.frames + numpy.uint32(1)
        if begun.any():
            self._games.reset(begun.nonzero()[0].tolist(), self._state)
            frames[begun], masks[begun] = self._first
        now = self._view = self._seen(frames, masks)
        if self._at_goal is None:
            at_goal = numpy.zeros(self.num_envs, bool)
        else:
            at_goal = self._goals(now, begun)
        rewards = numpy.asarray(self._reward(before, now, at_goal), "f8").copy()
        rewards[begun] = 0.0
        truncations = (frames - numpy.uint32(self._first[0]) >= self._frames) & ~begun
        self._ended = at_goal | truncations
        return self._observation(now), rewards, at_goal, truncations, self._infos(now, at_goal)

    def close_extras(self, **_: Any) -> None:
        self._games.close()

    def _masks(self, actions: Any) -> Any:
        """The signals of each game."""
        array = numpy.asarray(actions)
        shape = (self.num_envs, len(self.letters)) if isinstance(self.single_action_space, spaces.MultiBinary) else (self.num_envs,)
        end = 2 if len(shape) == 2 else 1 << len(self.letters)
        if array.shape != shape or array.dtype.kind not in "biu" or (array < 0).any() or (array >= end).any():
            raise ValueError(f"actions are an array {shape} of integers from 0 to {end - 1}")
        bits = array if len(shape) == 2 else array[:, None] >> numpy.arange(len(self.letters)) & 1
        return bits.astype("u4") @ self._bits

    def _goals(self, now: BatchView, begun: Any) -> Any:
        """Which episodes are at the goal: none that has just begun."""
        if begun.any():
            # Before its first frame an agent has no line. Any answer may stand in its place, for what is found there isn't used.
            agents = now.agents.copy()
            agents["status"][begun] = 0
            now = now._replace(agents=agents)
        assert self._at_goal is not None
        return numpy.asarray(self._at_goal(now), bool) & ~begun

    def _seen(self, frames: Any, masks: Any) -> BatchView:
        return BatchView(self.level, frames, masks, *self._games.look_all())

    def _observation(self, view: BatchView) -> Any:
        planes, agents = numpy.repeat(self._ground, self.num_envs, axis=0), view.agents
        is_open = (view.signals[:, None] >> self._door_signals & 1).astype(bool)
        codes = (self._door_signals + 1).astype("u1")
        planes[:, SHUT, self._door_rows, self._door_columns] = numpy.where(is_open, 0, codes)
        planes[:, OPEN, self._door_rows, self._door_columns] = numpy.where(is_open, codes, 0)
        planes[:, ITEM] = view.cells["item"]
        at = agents["y"], agents["x"]
        planes[(self._each, AGENT, *at)] = numpy.arange(1, agents.shape[1] + 1)
        planes[(self._each, CARRYING, *at)] = agents["carrying"]
        planes[(self._each, ANSWER, *at)] = agents["status"] + 1 & 3
        return planes

    def _infos(self, view: BatchView, at_goal: Any) -> dict[str, Any]:
        """In the form of Gymnasium's vector environments: beside each key an array that says which episodes have it."""
        told = {"frame": view.frames, "signals": view.signals, "goal": at_goal}
        return {**told, **{f"_{key}": numpy.ones(self.num_envs, bool) for key in told}}
