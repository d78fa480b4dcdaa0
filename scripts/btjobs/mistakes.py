#!/usr/bin/env python3
"""Mistakes that teams make, planted in a small game: which seed shows each, whom the finder names, and how many of so many runs on threads
show it. Each shared thing is behind a lock, or is one operation of Python's.     mistakes.py [SEEDS [RUNS [THREADS [CLEAN]]]]"""
import itertools
import random
import struct
import sys
import threading
from pathlib import Path

sys.path.insert(0, str(Path(__file__).resolve().parents[2] / "python/src"))
import btjobs  # noqa: E402
from btjobs._library import ANSWER, DRAW, SHOW, THINK, TURN  # noqa: E402

AGENTS, BANDS = 8, 2
NEXT = itertools.count()


class Piece:
    """An object that doesn't say what it holds: it is hashed, and so ordered in a set, by its address."""
    def __init__(self, x):
        self.x = x

    def __repr__(self):
        return f"<Piece at {id(self):#x}>"


class Town(btjobs.Game):
    def __init__(self, mistake=None):
        self.mistake, self.lock, self.random, self.fresh, self.arrived, self.total, self.cache, self.ids = mistake, threading.Lock(), random.Random(1), {}, [], 0.0, {}, 0
        self.winner, self.newest, self.sprites = None, None, {}

    def start(self):
        return [(a * 37 % 100, 0) for a in range(AGENTS)]

    def think(self, v, answers):
        if not answers and v.agent % 3 == 0:
            return btjobs.Ask(v.world[v.agent][0] // 25)
        x = v.world[v.agent][0] + (v.frame * 7 + v.agent * 13) % 21 - 10 + sum(answers)
        extra, m = 0, self.mistake
        with self.lock:
            if m == "shared random stream":
                x += self.random.randrange(16)
            elif m == "neighbour's new state":
                x += self.fresh.get((v.agent + 1) % AGENTS, 0) // 8
                self.fresh[v.agent] = x
            elif m == "float sum in order of finish":
                self.total += 1000.0 / (1 + x * x % 97)
            elif m == "cache filled by the first":
                x += self.cache.setdefault(x // 50, v.agent)
            elif m == "address kept":
                extra = Piece(x)
            elif m == "static counter for ids":
                extra = next(NEXT)
            elif m == "shared counter for ids":
                self.ids += 1
                extra = self.ids
            elif m == "the first to come wins" and x % 2 == 0 and self.winner is None:
                self.winner = v.agent
            elif m == "throws after another":
                if v.agent == 2 and self.fresh.get(5) == v.frame:
                    raise RuntimeError("5 has moved")
                self.fresh[v.agent] = v.frame
            elif m == "writes into the world":
                v.world[v.agent] = (x, 0)
        return x, extra

    def answer(self, v, cell):
        near = sum(x // 25 == cell for x, _ in v.world) + v.frame
        return self.cache.setdefault(cell, near) if self.mistake == "answer kept past its frame" else near

    def turn(self, start, thoughts):
        world = list(thoughts)
        if self.mistake == "float sum in order of finish":
            world[0], self.total = (world[0][0], self.total), 0.0
        elif self.mistake == "the first to come wins":
            world[0], self.winner = (world[0][0], self.winner), None
        elif self.mistake == "set ordered by address":
            pieces = {Piece(x) for x, _ in world}  # in the order of their addresses
            world[0] = (world[0][0], [p.x for p in pieces])
        elif self.mistake == "slot used again too early":
            world[0] = (world[0][0], start.frame % 2)  # two buffers, and three frames overlap
            self.sprites[start.frame % 2] = world
        self.newest = world
        return world

    def draw(self, world, band):
        if self.mistake == "draw of the newest world":
            world = self.newest
        elif self.mistake == "slot used again too early":
            world = self.sprites[world[0][1]]
        elif self.mistake == "answer kept past its frame" and band == 0:
            self.cache.clear()
        row = [x for x, _ in world[band::BANDS]]
        if self.mistake == "output in order of arrival":
            self.arrived.append(row)
        return row

    def show(self, frame, bands):
        arrived, self.arrived = self.arrived, []
        return arrived


class Heat(btjobs.Game):
    """A clean game with floats: heat flows along a ring, and each cell has random numbers of its own."""
    def start(self):
        return [1.0] * AGENTS

    def signals(self, frame):
        return frame % 3

    def think(self, v, answers):
        flow = v.world[(v.agent + 1) % AGENTS] + v.world[v.agent - 1] - 2 * v.world[v.agent]
        return v.world[v.agent] + 0.2 * flow + v.signals + random.Random(v.frame * 1000 + v.agent).random()

    def turn(self, start, thoughts):
        return list(thoughts)

    def draw(self, world, band):
        return struct.pack("d", sum(world[band::BANDS]))


def is_right(mistake, f):
    """Says whether the finder named what was planted: the two steps that share, or that the order has nothing to do with it."""
    if mistake is None:
        return f.agrees()
    if mistake in ("set ordered by address", "address kept", "static counter for ids"):
        return f.verdict == "not repeatable" and f.job.kind == (TURN if mistake == "set ordered by address" else THINK)
    if f.verdict != "order" or not f.neighbours:
        return False
    kinds, in_pair, apart = {f.early.kind, f.late.kind}, f.job in (f.early, f.late), abs(f.early.index - f.late.index)
    if mistake in ("shared random stream", "cache filled by the first"):
        return kinds == {THINK} and in_pair
    if mistake in ("float sum in order of finish", "shared counter for ids", "the first to come wins"):
        return kinds == {THINK}
    if mistake == "neighbour's new state":
        return kinds == {THINK} and in_pair and apart in (1, AGENTS - 1)
    if mistake == "throws after another":
        return kinds == {THINK} and in_pair and apart == 3 and f.thrown
    if mistake == "writes into the world":
        return THINK in kinds and in_pair  # beside whoever reads that world: another think, an answer, or the draw of the frame before
    if mistake == "output in order of arrival":
        return f.job.kind == SHOW and kinds in ({DRAW}, {DRAW, SHOW})
    if mistake == "answer kept past its frame":
        return kinds == {ANSWER, DRAW}
    if mistake == "draw of the newest world":
        return kinds == {DRAW, TURN} and in_pair
    return kinds == {DRAW, TURN} and in_pair and abs(f.early.frame - f.late.frame) == 2


MISTAKES = (None, "shared random stream", "neighbour's new state", "output in order of arrival", "set ordered by address", "float sum in order of finish",
            "cache filled by the first", "address kept", "static counter for ids", "shared counter for ids", "slot used again too early", "answer kept past its frame",
            "draw of the newest world", "throws after another", "the first to come wins", "writes into the world")


def on_threads(mistake, n, threads):
    try:
        return btjobs.run(Town(mistake), n, threads).came
    except RuntimeError:
        return None


def main():
    given = [int(word) for word in sys.argv[1:]]
    seeds, runs, threads, clean = given + [200, 300, 4, 300][len(given):]
    n, wrong, table = btjobs.Settings(frames=4, agents=AGENTS, bands=BANDS, most_questions=1), 0, []
    for mistake in MISTAKES:
        found = btjobs.explore(lambda: Town(mistake), n, seeds)
        right = is_right(mistake, found)
        wrong += not right
        print("==", mistake, found, sep="\n")
        one = on_threads(mistake, n, 1)
        differ = sum(on_threads(mistake, n, threads) != one for _ in range(runs))
        table.append(f"{mistake or 'none':<28} seed {found.seed}, {'right' if right else 'WRONG'}; {found.out_of_order} steps out of order, {found.replays} replays; "
                     f"threads: {differ} of {runs} runs")
    print(*table, sep="\n")
    for game in (Town, Heat):
        found = btjobs.explore(game, n, clean)
        wrong += not found.agrees()
        print(f"clean game {game.__name__}: {found.steps} steps, {found.seconds:.2f} s: {found}")
    return wrong


if __name__ == "__main__":
    sys.exit(main())
