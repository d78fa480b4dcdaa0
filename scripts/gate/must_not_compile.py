#!/usr/bin/env python3
"""Compiles what the compiler has to refuse before any proof, and looks that it does, and for the reason that is meant.

    scripts/gate/must_not_compile.py

Each crate is compiled as it stands first, which has to go well, and then once with each of its changes. A small crate of its own is
written here, over the repository's crates; the others are copies of the repository's. A change that does no harm is tried too, and
has to be found. Nothing is proved: `rattle check --only ''` reads the sources of all crates below."""
import re
import shutil
import subprocess
import sys
import tempfile
from pathlib import Path

TOP = Path(__file__).resolve().parents[2]
sys.dont_write_bytecode = True
sys.path[:0] = [str(TOP / "scripts" / it) for it in ("shared",)]
import crates
import rattle

USES = """#![tactic(auto)]

use bt_tick::Pending;
use bumpalo::Bump;
use frame_params::Lease;
use run_shared::{LockedBoard, RunLedger};
use std::alloc::Global;
use std::sync::ledger::{Ledger, Share};
use std::thread::{Threads, join};

pub fn late(alloc: Global, pending: &Pending<'_, Global, Global>) -> bool {
    let mut arena = Bump::new(alloc);
    let Ok(copy) = pending.copy_in(&arena) else {
        return false;
    };
    let place = copy.place();
    drop(copy);
    let is_empty = arena.reset().is_ok();
    is_empty && place.number() < 10
}

pub fn elsewhere<R: Threads>(rt: &R, alloc: Global) -> bool {
    let arena = Bump::new(alloc);
    let _here = &arena;
    let (first, second) = join(rt, || true, || true);
    first && second
}

pub fn twice<'t, L: RunLedger, M: Ledger, D: Ledger>(hold: LockedBoard<'_, 't, L, M, D>, lease: &mut Lease<'t>, mine: &mut Share<L>) -> bool {
    let first = hold.take(0, true, lease, mine).is_ok();
    first
}
"""
USES_NEEDS = "grid_world bt_nodes bt_tick frame_params run_shared bumpalo"

EARLY = "    drop(copy);\n    let is_empty = arena.reset().is_ok();\n"
LATE = "    let is_empty = arena.reset().is_ok();\n    drop(copy);\n"

# What it is, the crate (None is the one above), the text that stands once in it, what it becomes, and the error's name.
CHANGES = [
    ("a tick in an arena, parked without being moved out", "frame_params", "pending.move_in(alloc)?", "pending", "mismatched-types"),
    ("a tick in an arena, read behind the arena's reset", None, EARLY, LATE, "borrow-e0502"),
    ("an arena used by another thread", None, "join(rt, || true,", "join(rt, || arena.allocated_bytes() == 0,", "unsatisfied-bound"),
    ("two events in one hold of the board's lock", None, "    first\n}", "    hold.take(0, true, lease, mine).is_ok() && first\n}", "borrow-e0382"),
]

# What is told of a change after which the crate compiles.
COMPILES = "it compiles"
HARMLESS = ("a change that does no harm", None, "    first\n}", "    let answer = first;\n    answer\n}", "borrow-e0382")

KIT = rattle.kit() or sys.exit("there is no `rattle` on the path")
NEEDS = crates.needs()


def below(libraries):
    """Returns the repository's crates that these stand for and stand on, each after those that it needs."""
    return [*dict.fromkeys(it for library in libraries if library in NEEDS for it in [*crates.below(library), library])]


def of_kit(libraries):
    return ["std", *(it for it in libraries if it not in NEEDS)]


def compiled(name, needs, folder):
    """Tells whether the crate in a folder compiles, and what was said of it."""
    own, lower = of_kit(needs), below(needs)
    more = sorted({"core", *(it for crate in lower for it in of_kit(NEEDS[crate]))} - {*own})
    words = [f"{KIT}/bin/rattle", "check", "--crate-name", name, "src/lib.rt"]
    for it in own:
        words += ["--extern", f"{it}={KIT}/rlibs/{it}.rlib"]
    words += ["-L", f"dependency={KIT}/rlibs"]
    for it in more:
        words += ["--extern", f"{it}={KIT}/rlibs/{it}.rlib"]
    for it in lower:
        uses = dict.fromkeys(["core", *of_kit(NEEDS[it]), *(library for library in NEEDS[it] if library in NEEDS)])
        words += ["--lib", f"{it}:{','.join(uses)}={TOP}/crates/{it}/src/lib.rt"]
    words += [*rattle.proofs(name), "--jobs", "1", "--only", ""]
    ran = subprocess.run(words, cwd=folder, stdin=subprocess.DEVNULL, stdout=subprocess.PIPE, stderr=subprocess.STDOUT)
    said = ran.stdout.decode(errors="replace")
    return bool(re.search(r"^only=.*\n\Z", said, re.M)), said


def write(crate, folder):
    """Writes a crate's folder, and returns its name and what it needs."""
    if crate is None:
        (folder / "src").mkdir(parents=True)
        (folder / "src/lib.rt").write_text(USES)
        return "uses", USES_NEEDS.split()
    for part in ("src", "specs", "proofs"):
        if (TOP / "crates" / crate / part).is_dir():
            shutil.copytree(TOP / "crates" / crate / part, folder / part)
    return crate, NEEDS[crate]


def changed(folder, old, new):
    """Changes the one place of a crate's sources at which a text stands, and returns the file and what it was."""
    found = [it for it in sorted((folder / "src").rglob("*.rt")) if old in it.read_text()]
    if len(found) != 1 or found[0].read_text().count(old) != 1:
        return None, None
    text = found[0].read_text()
    found[0].write_text(text.replace(old, new))
    return found[0], text


def against(change, name, needs, folder):
    """Returns what is wrong with a change that has to be refused, "" if nothing is, and what was said then."""
    _, _, old, new, error = change
    file, text = changed(folder, old, new)
    if file is None:
        return f"what it changes doesn't stand once in {name}", []
    is_well, said = compiled(name, needs, folder)
    file.write_text(text)
    told = [it for it in re.findall(r"(\S+?):\d+:\d+: error\[([\w-]+)\]", said) if it[1] == error and it[0].endswith(file.name)]
    if told and not is_well:
        return "", []
    return (COMPILES if is_well else f"refused, but not by {error}"), said.splitlines()[:6]


def main():
    wrong = 0
    for crate in dict.fromkeys(it[1] for it in CHANGES):
        with tempfile.TemporaryDirectory() as room:
            folder = Path(room) / "crate"
            name, needs = write(crate, folder)
            is_well, said = compiled(name, needs, folder)
            if not is_well:
                wrong += 1
                print(f"{name} doesn't compile as it stands:", *said.splitlines()[:12], sep="\n")
                continue
            for change in (it for it in CHANGES if it[1] == crate):
                found, said = against(change, name, needs, folder)
                wrong += bool(found)
                print(f"{change[0]}: {found or f'refused by {change[4]}'}", *said, sep="\n", flush=True)
            if crate is None and against(HARMLESS, name, needs, folder)[0] != COMPILES:
                wrong += 1
                print(f"{HARMLESS[0]} is not found")
    print(f"{len(CHANGES)} changes, {wrong} wrong")
    return wrong != 0


if __name__ == "__main__":
    sys.exit(main())
