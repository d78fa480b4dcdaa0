#!/usr/bin/env python3
"""Measures what a hold of the board's lock costs on a level (scripts/speed/holds.py), and compares it with the figures that are kept.

    scripts/speed/hold_bounds.py [--write] [PROGRAM]

PROGRAM is crates/btworld/out/btworld where it isn't given; `rt ci` and ./prove build it. scripts/speed/hold_bounds.txt has the level, the
number of frames, and the instructions and the cache lines of a mean hold. Valgrind may stop a thread that holds the lock, and another
then tries for it, so the least of two runs counts. The board lies on the main thread's stack, which begins behind the environment's
bytes, so its cache lines depend on how long these are: the mean is taken over the four places that a stack can have in a line. A
mean that is more than a tenth above its figure is wrong; with --write the figures are put there as they are measured. Figures that
are a fifth too low have to be refused."""
import os
import re
import subprocess
import sys
from pathlib import Path

TOP = Path(__file__).resolve().parents[2]
KEPT = TOP / "scripts/speed/hold_bounds.txt"
WHAT = ("instructions", "lines")
RUNS = 2
# A stack begins at a multiple of 16 bytes, and a cache line has 64.
PLACES = (0, 16, 32, 48)


def measured(program, level, frames, place):
    """Returns how many instructions and lines a mean hold has whose stack begins so many bytes lower."""
    moved = {**os.environ, "PLACE": "." * place}
    ran = subprocess.run([TOP / "scripts/speed/holds.py", program, TOP / level, frames], stdout=subprocess.PIPE, check=True, env=moved)
    said = ran.stdout.decode()
    found = re.search(r"of a hold: ([\d.]+) instructions, ([\d.]+) lines", said)
    if not found:
        sys.exit(f"scripts/speed/holds.py says something else: {said[:300]}")
    print(said.splitlines()[0], flush=True)
    return [float(it) for it in found.groups()]


def above(figures, found):
    return [f"{now:.1f} {what}, more than a tenth above {kept}" for what, kept, now in zip(WHAT, figures, found) if now > 1.1 * kept]


def main():
    words = [it for it in sys.argv[1:] if it != "--write"]
    program = Path(words[0] if words else TOP / "crates/btworld/out/btworld").resolve()
    if not program.exists():
        sys.exit(f"{program} isn't there: `rt ci` and ./prove build it")
    comments = [it for it in KEPT.read_text().splitlines() if it.startswith("#")]
    rows = [it.split() for it in KEPT.read_text().splitlines() if it and not it.startswith("#")]
    wrong, new = [], []
    for level, frames, *figures in rows:
        least = [min(measured(program, level, frames, place) for _ in range(RUNS)) for place in PLACES]
        found = [sum(it) / len(PLACES) for it in zip(*least)]
        new.append(f"{level} {frames} {found[0]:.0f} {found[1]:.1f}")
        if "--write" not in sys.argv:
            wrong += [f"{level}: {it}" for it in above([float(it) for it in figures], found)]
        if len(above([it * 0.8 for it in found], found)) != len(WHAT):
            wrong.append(f"{level}: figures that are too low are not refused")
    if "--write" in sys.argv:
        KEPT.write_text("".join(f"{it}\n" for it in [*comments, *new]))
    print(*wrong, f"{len(rows)} levels, {len(wrong)} wrong", sep="\n")
    return bool(wrong) or not rows


if __name__ == "__main__":
    sys.exit(main())
