#!/usr/bin/env python3
"""Kills recorded runs at random moments, completes their journals, and wants the frames of `play`.

    scripts/runs/killed_runs.py [--program PATH] [--times N] [--frames N] [--seed N]

Each of the runs, 100 where no number is given, is one of a sample level's, with random numbers of workers, fibers and slots, and is
killed (SIGKILL) after a random part of the time that a whole one takes. What it wrote has to be a first part of the frames
that `play` writes; its journal, where it has both heads, has to show all frames that it wrote, but perhaps the last, and to be
completed to all of them by a log that `replay` shows whole, and else to be refused for the head that it lacks, before any frame.
Prints how many runs were killed, by how far their journals had got; the status is 1 where a run is wrong, where no killed run left
both heads, or where a journal with an event too many is not found wrong. Without --program it is the proved one,
crates/btworld/out/btworld, which ./prove builds."""
import argparse
import random
import subprocess
import sys
import tempfile
import time
from collections import Counter
from pathlib import Path

TOP = Path(__file__).resolve().parents[2]
SAMPLES = (("warehouse", True), ("patrol", True), ("bucket_chain", False), ("parade", False))


def judge(program, level, journal, wrote, frames, room):
    """Returns how far the journal of a killed run had got, and what is wrong with the run, or None."""
    if not frames.startswith(wrote):
        return "", "what it wrote is no first part of the frames"
    if not journal.exists():
        return "no journal", "it wrote frames and no journal" if wrote else None
    data = journal.read_bytes()
    whole = room / "whole.log"
    ran = subprocess.run([program, "complete", level[0], journal, whole, *level[1:]], capture_output=True)
    heads = data.count(b"\n")
    if heads < 2 and wrote:
        return "", "it wrote frames before both heads"
    if heads < 2:
        wanted = b"journal: head\n" if data.startswith(b"btworld journal") and not heads else b"log: head\n"
        return "no head of a log", None if (ran.returncode, ran.stdout, ran.stderr) == (2, b"", wanted) else f"it is completed with {ran.stderr}"
    if (ran.returncode, ran.stdout) != (0, frames):
        return "", f"its journal is not completed: status {ran.returncode}, {ran.stderr}"
    begun, shown = wrote.count(b"frame "), data.count(b"emit ")
    if shown + 1 < begun:
        return "", f"its journal shows {shown} frames where {begun} are begun"
    ran = subprocess.run([program, "replay", level[0], whole, *level[1:]], capture_output=True)
    if (ran.returncode, ran.stdout) != (0, frames):
        return "", f"its completed log is not whole: status {ran.returncode}, {ran.stderr}"
    return "both heads" if heads == 2 else "events", None


def main():
    given = argparse.ArgumentParser()
    given.add_argument("--program", default=f"{TOP}/crates/btworld/out/btworld")
    given.add_argument("--times", type=int, default=100)
    given.add_argument("--frames", type=int, default=600)
    given.add_argument("--seed", type=int, default=1)
    given = given.parse_args()
    if not Path(given.program).exists():
        sys.exit(f"{given.program} isn't there: ./prove builds it")
    chance, found, wrong = random.Random(given.seed), Counter(), []
    words = lambda *numbers: [part for name, number in zip(("workers", "small", "large", "slots"), numbers) for part in (f"--{name}", str(number))]
    levels = [[f"{TOP}/levels/{name}.json", *(["--script", f"{TOP}/levels/{name}.script"] if script else [])] for name, script in SAMPLES]
    count = ["--frames", str(given.frames)]
    shown = [subprocess.run([given.program, "play", *level, *count, "--workers", "1"], check=True, capture_output=True).stdout for level in levels]
    with tempfile.TemporaryDirectory(prefix="killed-") as room:
        room = Path(room)
        journal = room / "run.journal"

        def recorded(number, settings, seconds):
            """Records a run, kills it after so many seconds where it hasn't ended, and returns what it wrote, and whether it was killed."""
            journal.unlink(missing_ok=True)
            level = levels[number]
            with open(room / "out", "wb") as out:
                run = subprocess.Popen([given.program, "record", level[0], journal, *level[1:], *count, *settings], stdout=out)
                try:
                    run.wait(seconds)
                except subprocess.TimeoutExpired:
                    run.kill()
                    run.wait()
            return (room / "out").read_bytes(), run.returncode < 0

        times = []
        for number, level in enumerate(levels):
            begun = time.monotonic()
            wrote, _ = recorded(number, words(2, 8, 8, 3), None)
            times.append(time.monotonic() - begun)
            if wrote != shown[number] or judge(given.program, level, journal, wrote, shown[number], room) != ("events", None):
                wrong.append(f"{level[0]}: a run that isn't killed")
        # (the last line once more: no event happens twice)
        data = journal.read_bytes()
        journal.write_bytes(data + data.splitlines(True)[-1])
        if judge(given.program, levels[-1], journal, b"", shown[-1], room)[1] is None:
            wrong.append("a journal with an event too many is not found wrong")
        for _ in range(given.times):
            number = chance.randrange(len(levels))
            settings = words(chance.choice((1, 2, 4, 16)), chance.randint(1, 16), chance.randint(2, 63), chance.randint(1, 16))
            wrote, is_killed = recorded(number, settings, chance.uniform(0, times[number]))
            left, fault = judge(given.program, levels[number], journal, wrote, shown[number], room)
            if fault:
                wrong.append(f"{levels[number][0]} {' '.join(settings)}: {fault}")
            else:
                found["ended before it was killed" if not is_killed else left] += 1
    print(f"{given.times} recorded runs: " + ", ".join(f"{n} {what}" for what, n in sorted(found.items())))
    if not found["both heads"] + found["events"]:
        wrong.append("no killed run left both heads")
    for it in wrong:
        print(f"wrong: {it}")
    return 1 if wrong else 0


if __name__ == "__main__":
    sys.exit(main())
