#!/usr/bin/env python3
"""Runs `rt ci` at the top of the repository and writes what it says with the seconds since its begin before each line.

    scripts/gate/timed_gate.py > gate.log
    scripts/gate/gate_times.py gate.log

Names of crates after it go to `rt ci`, which then is about these and those below them. Before its last line, 'N passed,
M failed', which stays as it is, stands a line for each crate and part (proof, tests, edits) with its time by the clock
and its processor time: 'time: NAME PART CLOCK PROCESSOR', both in seconds, and a line for each wrong body with its
processor time, the dearest first: 'edit: NAME/EDIT PROCESSOR', where EDIT is 'seed' for the proof of the crate as it
stands, over which its wrong bodies are tried. They are read off the checks that rt runs, once a second, so a check that
is over sooner may be missing. The exit status is rt's."""
import os
import re
import subprocess
import sys
import threading
import time

TICK = os.sysconf("SC_CLK_TCK")


def read(path):
    try:
        with open(path, "rb") as it:
            return it.read().decode(errors="replace")
    except OSError:
        return ""


def processes():
    """Returns of each process its parent, and the processor time of its own and of the children that it waited for."""
    found = {}
    for name in os.listdir("/proc"):
        text = read(f"/proc/{name}/stat") if name.isdigit() else ""
        if text:
            fields = text[text.rfind(")") + 2 :].split()
            found[int(name)] = int(fields[1]), sum(map(int, fields[11:15])) / TICK
    return found


def part_of(process):
    """Returns the crate and the part that a check is for, or None where the process is no check."""
    words = read(f"/proc/{process}/cmdline").split("\0")
    if "--crate-name" not in words or os.path.basename(words[0]) != "rattle":
        return None
    try:
        room = os.path.basename(os.readlink(f"/proc/{process}/cwd"))
    except OSError:
        return None
    name = words[words.index("--crate-name") + 1]
    if not room.startswith("rt-edit-"):
        return name, "tests" if "--test" in words else "proof", None
    # rt gives a check of the seed a folder `seed`, and one of a wrong body a folder of the body's number.
    over = words[words.index("--incremental") + 1] if "--incremental" in words else ""
    return name, "edits", os.path.basename(over)


def edit_named(name, number):
    """Returns the name of a crate's wrong body by the number that rt gives it."""
    folder = f"crates/{name}/must-fail"
    edits = sorted(it for it in os.listdir(folder) if it.endswith(".edit")) if os.path.isdir(folder) else []
    return edits[int(number)] if number.isdigit() and int(number) < len(edits) else number or "alone"


class Checks:
    """The checks that were seen: of each what it is for, when it was seen first and last, and its processor time."""

    def __init__(self, gate):
        self.gate, self.seen = gate, {}

    def look(self, now):
        found = processes()
        below = {}
        for process, (parent, _) in found.items():
            below.setdefault(parent, []).append(process)
        for process in below.get(self.gate, []):
            what = part_of(process)
            if what:
                first = self.seen.get(process, (what, now))[1]
                self.seen[process] = what, first, now, self.used(process, found, below)

    def used(self, process, found, below):
        return found[process][1] + sum(self.used(it, found, below) for it in below.get(process, []))

    def sums(self):
        """Returns by crate and part the time from its first check's begin to its last one's end, and the processor time."""
        sums = {}
        for (name, part, _), first, last, used in self.seen.values():
            begun, ended, total = sums.get((name, part), (first, last, 0.0))
            sums[name, part] = min(begun, first), max(ended, last), total + used
        return sums

    def edits(self):
        """Returns the processor time of each wrong body, the dearest first."""
        sums = {}
        for (name, part, number), _, _, used in self.seen.values():
            if part == "edits":
                edit = f"{name}/{edit_named(name, number)}"
                sums[edit] = sums.get(edit, 0.0) + used
        return sorted(sums.items(), key=lambda it: -it[1])


def main():
    begun = time.monotonic()
    since = lambda: time.monotonic() - begun
    gate = subprocess.Popen(["rt", "ci", *sys.argv[1:]], stdout=subprocess.PIPE, stderr=subprocess.STDOUT, text=True, errors="replace")
    checks, over = Checks(gate.pid), threading.Event()

    def watch():
        while not over.wait(1.0):
            checks.look(since())

    watching = threading.Thread(target=watch)
    watching.start()
    last = None
    for line in gate.stdout:
        if last is not None:
            print(f"{last[0]:7.1f} {last[1]}", flush=True)
        last = since(), line.rstrip("\n")
    status = gate.wait()
    over.set()
    watching.join()
    for (name, part), (first, ended, used) in sorted(checks.sums().items(), key=lambda it: it[1][0]):
        print(f"{first:7.1f} time: {name} {part} {ended - first:.1f} {used:.1f}")
    for edit, used in checks.edits():
        print(f"{since():7.1f} edit: {edit} {used:.1f}")
    print(f"{since():7.1f} time: all gate {since():.1f} {sum(it[2] for it in checks.sums().values()):.1f}")
    if last is not None:
        is_sum = re.match(r"\d+ passed, \d+ failed", last[1])
        print(last[1] if is_sum else f"{last[0]:7.1f} {last[1]}", flush=True)
    return status


if __name__ == "__main__":
    sys.exit(main())
