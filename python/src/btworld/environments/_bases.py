"""The base classes: Gymnasium's and PettingZoo's where these are installed, else classes of the same shape."""
from __future__ import annotations

import random
from typing import Any

try:
    import numpy
except ImportError:
    numpy = None  # type: ignore[assignment]

try:
    from gymnasium import Env
    from gymnasium.utils.seeding import np_random
    from gymnasium.vector import VectorEnv
except ImportError:

    class Env:  # type: ignore[no-redef]
        """What gymnasium.Env gives its subclasses."""

        metadata: dict[str, Any] = {"render_modes": []}
        render_mode: str | None = None
        spec: Any = None
        _np_random: Any = None

        @property
        def unwrapped(self) -> Any:
            return self

        @property
        def np_random(self) -> Any:
            if self._np_random is None:
                self._np_random, _ = np_random()
            return self._np_random

        @np_random.setter
        def np_random(self, generator: Any) -> None:
            self._np_random = generator

        def reset(self, *, seed: int | None = None, options: dict[str, Any] | None = None) -> Any:
            if seed is not None:
                self._np_random, _ = np_random(seed)

        def close(self) -> None:
            pass

        def __enter__(self) -> Any:
            return self

        def __exit__(self, *_: object) -> None:
            self.close()

    class VectorEnv:  # type: ignore[no-redef]
        """What gymnasium.vector.VectorEnv gives its subclasses."""

        metadata: dict[str, Any] = {}
        render_mode: str | None = None
        spec: Any = None
        closed = False
        num_envs: int

        @property
        def unwrapped(self) -> Any:
            return self

        def close(self, **how: Any) -> None:
            if not self.closed:
                self.close_extras(**how)
                self.closed = True

        def close_extras(self, **how: Any) -> None:
            pass

    def np_random(seed: int | None = None) -> tuple[Any, int]:  # type: ignore[misc]
        if numpy:
            sequence: Any = numpy.random.SeedSequence(seed)
            return numpy.random.Generator(numpy.random.PCG64(sequence)), int(sequence.entropy)
        return random.Random(seed), seed or 0


try:
    from gymnasium.vector import AutoresetMode

    # That it is named here tells wrappers how an ended environment begins again.
    AUTORESET: dict[str, Any] = {"autoreset_mode": AutoresetMode.NEXT_STEP}
except ImportError:
    AUTORESET = {}

try:
    from pettingzoo import ParallelEnv
except ImportError:

    class ParallelEnv:  # type: ignore[no-redef]
        """What pettingzoo.ParallelEnv gives its subclasses."""

        metadata: dict[str, Any] = {}
        agents: list[str]
        possible_agents: list[str]

        @property
        def num_agents(self) -> int:
            return len(self.agents)

        @property
        def max_num_agents(self) -> int:
            return len(self.possible_agents)

        @property
        def unwrapped(self) -> Any:
            return self

        def close(self) -> None:
            pass


__all__ = ["AUTORESET", "Env", "ParallelEnv", "VectorEnv"]
