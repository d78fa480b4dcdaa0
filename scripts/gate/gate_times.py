#!/usr/bin/env python3
"""Makes a table of the gate's time by crate from what scripts/gate/timed_gate.py wrote.

    scripts/gate/gate_times.py gate.log

Of each crate: seconds by the clock and of processor time for its proof, its tests and its wrong bodies (must-fail), and
how many wrong bodies there are. The last row has the whole gate."""
import re
import sys

PARTS = ("proof", "tests", "edits")


def main(file):
    times, counts, order, whole, said = {}, {}, [], ("", ""), ""
    with open(file, encoding="utf-8", errors="replace") as log:
        for line in log:
            at = re.match(r"\s*[\d.]+ time: (\S+) (\w+) ([\d.]+) ([\d.]+)$", line)
            tried = re.match(r"\s*[\d.]+ rt: (\S+): trying its must-fail edits \((\d+)\)", line)
            if tried:
                counts[tried[1]] = int(tried[2])
            elif at and at[1] == "all":
                whole = float(at[3]), float(at[4])
            elif at:
                times[at[1], at[2]] = float(at[3]), float(at[4])
                if at[1] not in order:
                    order.append(at[1])
            said = line.strip() or said
    if not times:
        sys.exit(f"{file} has no line 'time: ..': it is not what scripts/gate/timed_gate.py wrote")
    print("| Crate | Proof | Tests | Wrong bodies | Number | Processor, proof | tests | wrong bodies |")
    print("|---|---|---|---|---|---|---|---|")
    show = lambda it: f"{it:.0f}" if it else "-"
    sums = [0.0] * 3
    for name in order:
        found = [times.get((name, part), (0.0, 0.0)) for part in PARTS]
        sums = [a + b for a, (_, b) in zip(sums, found)]
        cells = [*[show(clock) for clock, _ in found], str(counts.get(name, 0)), *[show(used) for _, used in found]]
        print(f"| {name} | {' | '.join(cells)} |")
    print(f"| all | | | | {sum(counts.values())} | {' | '.join(show(it) for it in sums)} |")
    print(f"\nThe whole gate: {whole[0]:.0f} seconds by the clock, {whole[1]:.0f} of processor time; {said}.")


if __name__ == "__main__":
    if len(sys.argv) != 2:
        sys.exit(__doc__)
    main(sys.argv[1])
