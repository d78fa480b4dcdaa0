#!/usr/bin/env python3
"""Plays levels over and over with many numbers of workers, fibers of both sizes and slots, and compares each run with one worker's.

    scripts/runs/soak.py [--program PATH] [--frames N] [--short] [--times N] [--seconds N] [--processors 1,2,4] LEVEL[:SCRIPT] ..

Each run has to end with status 0 within the seconds, and to write the bytes that one worker with the fewest fibers and one
slot writes. The first run of each set of numbers also writes its log, which has to show all of its frames again
(`replay`), as only a complete list of events does, and the last writes to a full disk, and has to end with status 1 and
`run: write`. With --short each run has a random number of frames from 1 to N. Runs are bound to so many processors in turn.
Prints a line for each level and number of workers with the runs and their time, and a line for each run that differs; the
status is 1 where one does. Without --program it is the proved one, crates/btworld/out/btworld, which ./prove builds."""
import argparse
import os
import random
import resource
import subprocess
import sys
import tempfile
import time
from pathlib import Path

TOP = str(Path(__file__).resolve().parents[2])
WORKERS, FIBERS, SLOTS = (1, 2, 4, 16), ((1, 2), (16, 63)), (1, 16)
chance = random.Random(1)


def shown(words, seconds, processors, out=subprocess.PIPE):
    """Returns the status of a run, what it wrote and its last words, or what went wrong in words."""
    bind = lambda: os.sched_setaffinity(0, sorted(os.sched_getaffinity(0))[:processors])
    try:
        ran = subprocess.run(words, stdin=subprocess.DEVNULL, stdout=out, stderr=subprocess.PIPE, timeout=seconds, preexec_fn=bind)
    except subprocess.TimeoutExpired:
        return "does not end", b"", b""
    return ran.returncode, ran.stdout, ran.stderr


def first(text, frames):
    """Returns the part of a text of frames that has so many."""
    end = text.find(b"\nframe %d\n" % (frames + 1))
    return text if end < 0 else text[: end + 1]


def used():
    spent = resource.getrusage(resource.RUSAGE_CHILDREN)
    return spent.ru_utime + spent.ru_stime


def main():
    given = argparse.ArgumentParser()
    given.add_argument("--program", default=f"{TOP}/crates/btworld/out/btworld")
    given.add_argument("--frames", type=int, default=9999)
    given.add_argument("--short", action="store_true")
    given.add_argument("--times", type=int, default=20)
    given.add_argument("--seconds", type=int, default=300)
    given.add_argument("--processors", default=str(len(os.sched_getaffinity(0))))
    given.add_argument("levels", nargs="+")
    given = given.parse_args()
    if not os.path.exists(given.program):
        sys.exit(f"{given.program} isn't there: ./prove builds it")
    processors = [int(it) for it in given.processors.split(",")]
    runs = wrong = full = 0

    def look(words, status, out, wanted):
        nonlocal runs, wrong
        runs += 1
        found = shown([given.program, *words], given.seconds, processors[runs % len(processors)], out)
        if found != (status, *wanted):
            wrong += 1
            print(f"differs: {' '.join(words)}: status {found[0]}, {found[2]!r}", flush=True)

    for both in given.levels:
        level, _, script = both.partition(":")
        more = ["--script", script] if script else []
        numbers = lambda workers, fibers, slots: ["--workers", str(workers), "--small", str(fibers[0]), "--large", str(fibers[1]), "--slots", str(slots)]
        play = lambda frames: ["play", level, "--frames", str(frames), *more]
        status, text, _ = shown([given.program, *play(given.frames), *numbers(1, (1, 2), 1)], given.seconds, processors[-1])
        if status != 0:
            print(f"{level}: one worker: status {status}")
            return 1
        for workers in WORKERS:
            before, clock, spent = runs, time.monotonic(), used()
            for fibers in FIBERS:
                for slots in SLOTS:
                    for turn in range(given.times):
                        frames = chance.randint(1, given.frames) if given.short else given.frames
                        words, right = [*play(frames), *numbers(workers, fibers, slots)], (first(text, frames), b"")
                        if turn == 0:
                            with tempfile.TemporaryDirectory(prefix="soak-") as room:
                                look([*words, "--log", f"{room}/log"], 0, subprocess.PIPE, right)
                                look(["replay", level, f"{room}/log", *more], 0, subprocess.PIPE, right)
                        elif turn + 1 == given.times:
                            with open("/dev/full", "wb") as disk:
                                look(words, 1, disk, (None, b"run: write\n"))
                            full += 1
                        else:
                            look(words, 0, subprocess.PIPE, right)
            clock, spent = time.monotonic() - clock, used() - spent
            print(f"{level}: {workers} workers: {runs - before} runs, {clock:.0f} s, {spent:.0f} s of processor time", flush=True)
    print(f"{runs} runs, {full} to a full disk, {wrong} differ")
    return 1 if wrong else 0


if __name__ == "__main__":
    sys.exit(main())
