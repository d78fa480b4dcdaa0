#!/usr/bin/env python3
"""Makes a table of sizes by crate, from which that of docs/PROOFS.md is made: lines of code without tests, of tests, of
definitions and of proofs, the number of wrong bodies and of wrong definitions, and of the files of cases under data/.

    scripts/documents/sizes.py

Wrong bodies are the edits of must-fail/ and wrong-bodies/; a wrong definition is one that changes files of specs/ alone."""
import os
import re
import sys
from pathlib import Path

TOP = str(Path(__file__).resolve().parents[2])
sys.dont_write_bytecode = True
sys.path[:0] = [f"{TOP}/scripts/shared"]
import crates


def files(folder, ending=""):
    for at, folders, names in os.walk(folder):
        folders[:] = [it for it in folders if it != "out"]
        for name in names:
            if name.endswith(ending):
                yield f"{at}/{name}"


def lines(path):
    with open(path, encoding="utf-8", errors="replace") as it:
        return it.read().count("\n")


def code_and_tests(path):
    """A file of tests is named for them; else the tests begin at the line #[cfg(test)] with a block behind it."""
    whole = lines(path)
    if re.search(r"(^|_)tests\.rt$", os.path.basename(path)) or "/tests/" in path:
        return 0, whole
    with open(path, encoding="utf-8") as it:
        text = it.read()
    at = re.search(r"^#\[cfg\(test\)\]\nmod \w+ \{", text, re.M)
    tests = text[at.start() :].count("\n") if at else 0
    return whole - tests, tests


def is_of_definitions(path):
    with open(path, encoding="utf-8") as it:
        changed = re.findall(r"^file: (\w+)/", it.read(), re.M)
    return set(changed) == {"specs"}


COLUMNS = ("Code", "Tests", "Definitions", "Proofs", "Wrong bodies", "Wrong definitions")


def rows():
    """Returns of each crate the numbers of these columns, in the order of crates.txt."""
    found = {}
    for name in crates.needs():
        folder = f"{TOP}/crates/{name}"
        parts = [code_and_tests(it) for it in files(f"{folder}/src", ".rt")]
        row = [sum(it[0] for it in parts), sum(it[1] for it in parts)]
        if name.endswith(("_tests", "_uses")):
            # (a crate that is there for its tests alone)
            row = [0, sum(row)]
        row += [sum(lines(it) for it in files(f"{folder}/{part}", ".antt")) for part in ("specs", "proofs")]
        edits = [is_of_definitions(it) for part in ("must-fail", "wrong-bodies") for it in files(f"{folder}/{part}", ".edit")]
        found[name] = [*row, edits.count(False), edits.count(True)]
    return found


def main():
    found = rows()
    print(f"| Crate | {' | '.join(COLUMNS)} |")
    print(f"|{'---|' * (len(COLUMNS) + 1)}")
    for name, row in found.items():
        print(f"| {name} | {' | '.join(map(str, row))} |")
    print(f"| all | {' | '.join(str(sum(it)) for it in zip(*found.values()))} |")
    cases = sum(lines(it) for name in found for it in files(f"{TOP}/crates/{name}/data"))
    print(f"\nFiles of cases (data/): {cases} lines.")


if __name__ == "__main__":
    main()
