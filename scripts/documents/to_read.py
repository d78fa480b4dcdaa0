#!/usr/bin/env python3
"""Says what has to be read to believe a definition: the files of definitions that it rests on, each with its lines.

    scripts/documents/to_read.py game_rules/specs/Text replay_log/specs/Replays

The files of the repository's crates alone are counted, by the `use` lines of their specs/; those of proofs/ are no
definitions."""
import os
import re
import sys
from pathlib import Path

TOP = str(Path(__file__).resolve().parents[2])


def path_of(name):
    return f"{TOP}/crates/{name}.antt"


def uses(name):
    """Returns the files of specs/ that this one names. A type declared in Rust counts as read with its crate's code."""
    with open(path_of(name), encoding="utf-8") as it:
        text = it.read()
    found = set()
    for path in re.findall(r"^\s*(?:pub )?(?:unfoldable )?use Rattle\.([\w.]+)", text, re.M):
        parts = path.split(".")
        if "declared" not in parts and "specs" in parts:
            name = "/".join(parts[: parts.index("specs") + 2])
            if os.path.isfile(path_of(name)):
                found.add(name)
    return found


def lines_by_file(roots):
    """Returns the lines of each file that these definitions rest on, themselves among them."""
    read, left = {}, list(roots)
    while left:
        name = left.pop()
        if name not in read:
            with open(path_of(name), encoding="utf-8") as it:
                read[name] = len(it.readlines())
            left += uses(name)
    return read


def main(roots):
    read = lines_by_file(roots)
    for name in sorted(read):
        print(f"{read[name]:5} {name}")
    print(f"{sum(read.values()):5} lines in {len(read)} files")


if __name__ == "__main__":
    if len(sys.argv) < 2:
        sys.exit(__doc__)
    main(sys.argv[1:])
