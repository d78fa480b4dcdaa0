"""Learns, by a table of values (Q-learning), to let a thief through an airlock and back in few frames."""
import random
from pathlib import Path

from btworld.environments import SignalEnv

env = SignalEnv(Path("levels/airlock.json"), goal="A . 1,1 [*]", frames=60, actions="number")
actions = range(env.action_space.n)
values, dice = {}, random.Random(1)


def key(info):
    """What the learner knows of a frame: the agent, where items lie, and the signals."""
    view = env.game.view()
    return view.agents, view.items, info["signals"]


def episode(random_moves):
    _, info = env.reset()
    now, frames, terminated, truncated = key(info), 0, False, False
    while not (terminated or truncated):
        of_action = values.setdefault(now, [0.0] * len(actions))
        action = dice.choice(actions) if dice.random() < random_moves else of_action.index(max(of_action))
        _, reward, terminated, truncated, info = env.step(action)
        then, frames = key(info), frames + 1
        best = 0.0 if terminated else max(values.setdefault(then, [0.0] * len(actions)))
        of_action[action] += 0.5 * (reward + 0.99 * best - of_action[action])
        now = then
    return frames, terminated


for part in range(5):
    ended = [episode(random_moves=0.1) for _ in range(100)]
    reached = sum(terminated for _, terminated in ended)
    print(f"episodes {100 * part + 1} to {100 * part + 100}: {reached} at the goal, {sum(it for it, _ in ended) / 100:.1f} frames each")
frames, terminated = episode(random_moves=0)
print(f"without random moves: {frames} frames, {'at the goal' if terminated else 'not at the goal'}")
