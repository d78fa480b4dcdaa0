#!/usr/bin/env python3
"""Measures calls of the C library, and the commands over stepped games: nanoseconds of processor time of a frame.

    bench/calls.py [BTWORLD] [--frames N] [--rounds R]

BTWORLD is crates/btworld/out/btworld where it isn't given. The levels and the program `library` are those of bench.py, which is to be
run first. Printed is a table: the best of R (3) rounds of N (9,999) frames. Of the commands what they take with no frames is
taken off, since files are read and a level's digest is made once."""
import argparse
import resource
import subprocess
from pathlib import Path

HERE = Path(__file__).resolve().parent
LEVELS = ("open128", "maze128", "deep", "draw128", "mixed", "tiny")
CALLS = ("step", "text", "digest", "fork")


def spent(words):
    before = resource.getrusage(resource.RUSAGE_CHILDREN)
    subprocess.run(words, stdout=subprocess.DEVNULL, check=True)
    after = resource.getrusage(resource.RUSAGE_CHILDREN)
    return after.ru_utime + after.ru_stime - before.ru_utime - before.ru_stime


def main():
    given = argparse.ArgumentParser()
    given.add_argument("program", nargs="?", default=HERE.parent / "crates/btworld/out/btworld")
    given.add_argument("--frames", type=int, default=9999)
    given.add_argument("--rounds", type=int, default=3)
    given = given.parse_args()
    print("| Level | step | with its text | with its digest | with a fork | `digest` | `state` |", "|---|---|---|---|---|---|---|", sep="\n")
    for level in LEVELS:
        file, script = HERE / f"out/levels/{level}.json", HERE / f"out/levels/{level}.script"
        more = ["--script", script] if script.exists() else []
        library = lambda call: float(subprocess.run([HERE / "out/library", call, file, "--frames", str(given.frames), *more], stdout=subprocess.PIPE, check=True).stdout)
        command = lambda name, word, frames: spent([given.program, name, file, word, str(frames), *more])
        row = [min(library(call) for _ in range(given.rounds)) for call in CALLS]
        for name, word in (("digest", "--frames"), ("state", "--frame")):
            least = [min(command(name, word, frames) for _ in range(given.rounds)) for frames in (given.frames, 0)]
            row.append((least[0] - least[1]) * 1e9 / given.frames)
        print(f"| {level} |", " | ".join(f"{it:,.0f}" for it in row), "|", flush=True)


if __name__ == "__main__":
    main()
