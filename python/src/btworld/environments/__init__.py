"""Levels as environments: `SignalEnv` for one learner that switches signals (Gymnasium), `SignalsEnv` in which each signal is a player
(PettingZoo's parallel API), and `VectorSignalEnv` for many episodes at once (Gymnasium's vector API). The trees of the agents are the
level's: they belong to the world.

Where gymnasium or pettingzoo is installed these are its subclasses and take its spaces; else they are plain classes of the same shape.
Arrays are numpy's where that is installed, else memoryviews; VectorSignalEnv needs numpy.

>>> level = {"map": ["A.a0"], "agents": ["t"], "trees": {"t": ["move", "0"]}}
>>> env = SignalEnv(level, goal="A S .*", frames=9, render_mode="ansi")
>>> observation, info = env.reset(seed=1)
>>> observation.shape, info
((8, 1, 4), {'frame': 0, 'signals': '', 'goal': False})
>>> terminated = truncated = False
>>> while not (terminated or truncated):
...     observation, reward, terminated, truncated, info = env.step([1])
...     print(repr(env.render().split(chr(10))[1]), reward, terminated, truncated, info["signals"])
'.A/0' -0.01 False False a
'..A0' -0.01 False False a
'../A' -0.01 False False a
'../A' 1.0 True False a

An observation is 8 planes of a byte for each cell, [plane, y, x]:

0 wall: 1. 1 shut door, 2 open door: 1 for a to 26 for z. 3 place: 1 for 0 to 10 for 9. 4 item: 1, also under an agent. 5 agent: 1 for A
to 26 for Z. 6 carrying: 1. 7 answer of the agent's tree: 1 Success, 2 Failure, 3 Running, 0 before the first frame.

Trees also remember numbers, which planes don't show. With `observe="all"` an observation is a dictionary: `planes`; `signals`, a byte for
each letter that can be switched; `memory`, a number for each node of all agents' trees. The next frame depends on nothing else."""
from __future__ import annotations

from .play import PLANES, Reward, sparse
from .signal_env import SignalEnv
from .signals_env import SignalsEnv
from .vector_env import VectorSignalEnv


def register() -> None:
    """Make `gymnasium.make("btworld/Signals-v0", level=.., goal=..)` work, and `gymnasium.make_vec` too."""
    import gymnasium

    gymnasium.register(
        id="btworld/Signals-v0",
        entry_point="btworld.environments:SignalEnv",
        vector_entry_point="btworld.environments:VectorSignalEnv",
    )


__all__ = ["PLANES", "Reward", "SignalEnv", "SignalsEnv", "VectorSignalEnv", "register", "sparse"]
