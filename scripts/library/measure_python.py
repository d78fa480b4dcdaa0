#!/usr/bin/env python3
"""Measures the Python package, and prints tables in Markdown.

    scripts/library/measure_python.py [--games N] [LEVEL ..]

Levels are levels/airlock.json and levels/warehouse.json where none are given. The first table has microseconds of processor time, medians
of five: a frame, a look, and a step of an environment, for one game and for each of 1,000 stepped together. The second has games a second
by 1, 2 and 4 processes, medians of five by the clock, beside a loop of plain Python in as many processes, which shows what the machine
gives. It uses the package of python/src, with the library that this finds, or that BTWORLD_LIBRARY names. What needs numpy, or a later
library, is left out and named."""
import argparse
import os
import statistics
import subprocess
import sys
import time
from pathlib import Path

TOP = Path(__file__).resolve().parents[2]
sys.dont_write_bytecode = True
sys.path.insert(0, str(TOP / "python/src"))

from btworld import Level, __version__  # noqa: E402
from btworld import _library as library  # noqa: E402
from btworld.environments import SignalEnv, VectorSignalEnv  # noqa: E402
from btworld.games import Games  # noqa: E402

MANY = 1000
PLAIN = "x = 0\nfor it in range(6_000_000): x += it & 7"


def median(count, call, *, each=1):
    """Microseconds of processor time for each of so many calls, or for each part of one."""
    took = []
    for _ in range(5):
        since = time.process_time()
        for _ in range(count):
            call()
        took.append((time.process_time() - since) / count / each * 1e6)
    return statistics.median(took)


def figures_of(path):
    """Yields what is measured, and its figure."""
    level = Level(path)
    game, steps = level.open(), [["a"], ["a", "b"], [], ["b"]] * 15
    yield "`Game.step`", median(20, lambda: [game.step(it) for it in steps], each=60)
    yield "a frame of `Game.run`, 60 in a row", median(20, lambda: game.run(steps), each=60)
    yield "`Game.fork`", median(200, game.fork)
    yield "`Game.text`", median(200, game.text)
    yield "`Game.view`", median(200, game.view)
    yield "`Game.agents`", median(200, lambda: game.agents)
    yield "`Game.cells`", median(50, game.cells)
    env = SignalEnv(level, level.signals or "a", frames=1 << 30)
    env.reset()
    action = [1] * len(env.letters)
    yield "`SignalEnv.step`", median(100, lambda: env.step(action))
    try:
        games = Games(level, MANY)
        vector = VectorSignalEnv(level, MANY, level.signals or "a", frames=1 << 30)
    except (ImportError, NotImplementedError) as error:
        print(f"left out: 1,000 games at once ({error})", file=sys.stderr)
        return
    vector.reset()
    masks, actions = [it % 4 for it in range(MANY)], vector.action_space.sample()
    yield "a game of 1,000 by `Games.step_all`", median(10, lambda: games.step_all(masks), each=MANY)
    yield "a game of 1,000 by `Games.look_all`", median(10, games.look_all, each=MANY)
    yield "an episode of 1,000 by `VectorSignalEnv.step`", median(10, lambda: vector.step(actions), each=MANY)


def by_the_clock(starts):
    """Seconds until all of the processes that are started have ended."""
    since = time.monotonic()
    for it in [start() for start in starts]:
        if it.wait():
            sys.exit("a process that is measured fails")
    return time.monotonic() - since


def games_a_second(path, games, processes):
    env = {**os.environ, "PYTHONPATH": str(TOP / "python/src")}
    words = [sys.executable, "-m", "btworld.sweep", str(path), "--frames", "60", "--games", str(games), "--processes", str(processes)]
    how = {"env": env, "stdout": subprocess.DEVNULL, "stderr": subprocess.DEVNULL}
    return games / statistics.median(by_the_clock([lambda: subprocess.Popen(words, **how)]) for _ in range(5))


def plain_loops(processes):
    start = lambda: subprocess.Popen([sys.executable, "-c", PLAIN])
    return processes / statistics.median(by_the_clock([start] * processes) for _ in range(5))


def main():
    words = argparse.ArgumentParser()
    words.add_argument("--games", type=int, default=4000)
    words.add_argument("levels", nargs="*", type=Path, default=[TOP / "levels/airlock.json", TOP / "levels/warehouse.json"])
    given = words.parse_args()
    print(f"btworld {__version__}, Python {sys.version.split()[0]}, {library.PATH}\n")
    tables = [dict(figures_of(path)) for path in given.levels]
    names = [path.stem for path in given.levels]
    print(f"| Microseconds of processor time | {' | '.join(names)} |\n|---|{'---|' * len(names)}")
    for what in tables[0]:
        print(f"| {what} | {' | '.join(f'{table[what]:.2f}' for table in tables)} |")
    rows = {count: [*(games_a_second(path, given.games, count) for path in given.levels), plain_loops(count)] for count in (1, 2, 4)}
    print(f"\n| Processes | {' | '.join(f'{it}, games a second' for it in names)} | plain loops, times one |\n|---|{'---|' * (len(names) + 1)}")
    for count, row in rows.items():
        print(f"| {count} | {' | '.join(f'{it:.0f}' for it in row[:-1])} | {row[-1] / rows[1][-1]:.2f} |")


if __name__ == "__main__":
    main()
