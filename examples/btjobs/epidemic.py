#!/usr/bin/env python3
"""An epidemic among agents who look at some others, right and with mistakes.

    examples/btjobs/epidemic.py [random | writes] [--seeds N] ..    # with libbtjobs.so beside it, or where BTJOBS_LIBRARY says"""
import random
import sys
from pathlib import Path

sys.path.insert(0, str(Path(__file__).resolve().parents[2] / "python/src"))
import btjobs  # noqa: E402

AGENTS = 24


class Epidemic(btjobs.Game):
    def __init__(self, mistake=None):
        self.mistake, self.common = mistake, random.Random(1)

    def start(self):
        return [a < 3 for a in range(AGENTS)]

    def think(self, v, answers):
        if len(answers) < 2:
            return btjobs.Ask((v.agent * 7 + v.frame * 3 + len(answers)) % AGENTS)
        numbers = self.common if self.mistake == "random" else random.Random(v.frame * 1000 + v.agent)
        ill = v.world[v.agent] or numbers.random() < 0.2 * sum(answers)
        if self.mistake == "writes":
            v.world[v.agent] = ill
        return ill

    def answer(self, v, other):
        return v.world[other]

    def turn(self, start, thoughts):
        return list(thoughts)

    def draw(self, world, band):
        return "".join("X" if ill else "." for ill in world[band::2])


if __name__ == "__main__":
    named = sys.argv[1] if sys.argv[1:2] in (["random"], ["writes"]) else None
    btjobs.main(lambda: Epidemic(named), btjobs.Settings(frames=5, agents=AGENTS, bands=2, most_questions=2), sys.argv[2 if named else 1:])
