#!/usr/bin/env python3
"""Tries the wrong bodies of crates/NAME/wrong-bodies/: those of different functions together, in one check of the crate.

    scripts/gate/wrong_bodies.py [--share N] [--jobs N] [--libraries FOLDER] [--log FILE] [NAME..]

A file there is written as one of must-fail/, of which `rt ci` tries each in a check of its own. A function is proved from its own body
and from the contracts of those that it calls, so what is wrong in one doesn't count in another's proof: as many wrong bodies as there are
functions go into one copy of a crate, the proofs of these functions alone are checked, and of each the prover has to say that the clause
fails which its line `# refused-by: FUNCTION CLAUSE` names (scripts/gate/edit_refusals.py). Those that are not refused so come again, without
those that are, and alone in the end: of a function that calls one which isn't proved the prover may say nothing. A wrong definition, an edit
of specs/, is tried alone, and some proof of its crate has to refuse it.

The crates below are taken as they stand proved and built: by `rt ci` (crates/NAME/out/rlib), else by ./prove (crates/NAME/out/proved), or
in FOLDER/NAME/. With --share N the crates are dealt to N shares of about the same work, and that one is tried whose turn it is by the number of
commits: N landings try all. The status is 1 where an edit is not refused as it says, 2 where a crate below isn't built. Last stands how many
were refused."""
import argparse
import os
import re
import subprocess
import sys
import tempfile
import time
from concurrent.futures import ThreadPoolExecutor
from pathlib import Path
from shutil import copytree

TOP = Path(__file__).resolve().parents[2]
PARTS = ("src", "specs", "proofs")
sys.dont_write_bytecode = True
sys.path[:0] = [str(TOP / "scripts" / it) for it in ("shared",)]
import crates
import edit_refusals as refusals
import rattle

NEEDS = crates.needs()


class Edit:
    def __init__(self, file):
        self.crate, self.name = file.parent.parent, f"{file.parent.parent.name}/{file.name}"
        text, path, old = file.read_text(), None, None
        self.pairs, self.wanted = [], re.findall(r"(?m)^# refused-by: *(.*\S)", text)
        for line in text.splitlines():
            word, _, rest = line.partition(":")
            if word == "file":
                path = rest.strip()
            elif word == "old":
                old = rest.removeprefix(" ")
            elif word == "new":
                self.pairs.append((path, old, rest.removeprefix(" ")))
        self.is_definition = any(not path.startswith("src/") for path, _, _ in self.pairs)
        self.functions = {self.function(path, old) for path, old, _ in self.pairs}

    def function(self, path, old):
        """The function that an `old:` text stands in; a text that an earlier pair made stands where that does."""
        text = (self.crate / path).read_text()
        at = text.find(old)
        return (path, *refusals.function_at(text, text[:at].count("\n") + 1)) if at >= 0 else (path, "", "")

    def only(self):
        """Returns the words that have the proofs of the functions alone checked which it changes."""
        homes = ["::".join(Path(path).with_suffix("").parts[1:]).removesuffix("lib") for path, _, _ in self.functions]
        names = [[owner or home, name] for home, (_, owner, name) in zip(homes, self.functions)]
        return [word for it in names for word in ("--only", "::".join(filter(None, it)))]

    def why_stale(self):
        """Returns why it can't be applied to the sources as they stand, or None."""
        texts = {}
        for path, old, new in self.pairs:
            text = texts[path] if path in texts else (self.crate / path).read_text() if (self.crate / path).is_file() else ""
            if text.count(old) != 1:
                return f"an `old:` text is in {path} {text.count(old)} times, and not once"
            texts[path] = text.replace(old, new)
        return None if texts else "it has no `old:` and `new:` pair"

    def apply(self, room):
        for path, old, new in self.pairs:
            text = (room / path).read_text()
            (room / path).write_text(text.replace(old, new, 1))


def group_of(edits):
    """Returns the first edits of which no two change one function; a wrong definition is alone."""
    found, functions = [], set()
    for edit in edits:
        if not edit.is_definition and not functions & edit.functions:
            found.append(edit)
            functions |= edit.functions
    return found or edits[:1]


class Checker:
    def __init__(self, libraries, log):
        self.libraries, self.log = libraries, log

    def place(self, name):
        places = [Path(self.libraries).resolve() / name] if self.libraries else [TOP / "crates" / name / "out" / it for it in ("rlib", "proved")]
        found = next((it for it in places if (it / f"{name}.rlib").is_dir()), None)
        if not found:
            sys.exit(f"wrong_bodies: {name} is not built: `rt ci` or ./prove builds it")
        return found

    def words(self, name):
        return [*rattle.words("check", name, self.place), "--jobs", "1"]

    def check(self, edits, kept):
        """Returns the status of a check of the crate with these edits, what it said, and how to read a source as it was edited."""
        crate = edits[0].crate
        with tempfile.TemporaryDirectory(prefix="wrong-bodies-") as it:
            room = Path(it)
            for part in PARTS:
                if (crate / part).is_dir():
                    copytree(crate / part, room / part)
            for edit in edits:
                edit.apply(room)
            texts = {path: (room / path).read_text() for edit in edits for path, _, _ in edit.pairs}
            words = [f"{rattle.kit()}/bin/rattle", *self.words(crate.name), "--incremental", kept]
            only = [] if any(it.is_definition for it in edits) else [word for it in edits for word in it.only()]
            run = lambda more: subprocess.run(
                words + more, cwd=room, stdin=subprocess.DEVNULL, stdout=subprocess.PIPE, stderr=subprocess.STDOUT, errors="replace", text=True
            )
            ran = run(only)
            # A name that fits several functions or none: all of the crate is checked.
            if only and ran.returncode == 2:
                ran = run([])
        print(ran.stdout, file=self.log, flush=True)
        return ran.returncode, ran.stdout.rstrip().split("\n"), lambda path: texts.get(path) or (crate / path).read_text()


def told(lines):
    found = [it for it in lines if re.match(r"(note: )?\S+:\d+:\d+:", it)]
    return [it for it in found if ": error" in it or it.startswith("note: ")]


def is_of(edit, owner, function):
    """Tells whether it is a function that the edit changes; of one that a proof file names the type isn't told."""
    return any(function == name and owner in ("", its_owner) for _, its_owner, name in edit.functions)


def why_not(edit, status, lines, source):
    """Returns why this edit doesn't count as refused, or None."""
    if status != 1 or not lines[-1].startswith(("logic=not-proved", "only=")):
        return f"status {status}: {lines[-1][:160]}"
    if edit.is_definition:
        return None
    first = next((it for it in told(lines) if is_of(edit, *refusals.named(it, source)[:2])), None)
    if first is None:
        return "of no function that it changes does the prover say anything"
    whys = [refusals.why_wrong(it, first, source) for it in edit.wanted] or ["it doesn't say what refuses it"]
    return None if None in whys else whys[0]


def tried(checker, edits):
    """Tries the edits of one crate, and returns those that are not refused as they say, with why."""
    since, left, wrong, checks = time.monotonic(), [*edits], [], 0
    with tempfile.TemporaryDirectory(prefix="wrong-bodies-kept-") as kept:
        while left:
            group = group_of(left)
            checks += 1
            answer = checker.check(group, kept)
            whys = {edit: why_not(edit, *answer) for edit in group}
            refused = [edit for edit, why in whys.items() if why is None]
            # Of a function that calls another one that isn't proved the prover may say nothing: it comes again without that. If none was
            # refused, the first one is tried alone.
            if not refused and len(group) > 1:
                checks += 1
                whys = {group[0]: why_not(group[0], *checker.check(group[:1], kept))}
            if not refused:
                wrong += [(edit, why) for edit, why in whys.items() if why]
                refused = [*whys]
            left = [edit for edit in left if edit not in refused]
    print(f"{edits[0].crate.name}: {len(edits)} wrong bodies in {checks} checks, {time.monotonic() - since:.0f} s, {len(wrong)} not refused as they say", flush=True)
    return wrong


def jobs_at_once():
    """Returns how many crates are checked at a time: one a processor but one, as many as memory holds."""
    with open("/proc/meminfo") as it:
        free = next(int(line.split()[1]) for line in it if line.startswith("MemAvailable"))
    return max(1, min(len(os.sched_getaffinity(0)) - 1, free // 3_000_000))


def lines_of(name):
    return sum(it.read_bytes().count(b"\n") for it in (TOP / "crates" / name).rglob("*") if it.suffix in (".rt", ".antt") and "out" not in it.parts)


def shared(names, count):
    """Returns the crates of the share whose turn it is."""
    shares = [[0, []] for _ in range(count)]
    for name in sorted(names, key=lines_of, reverse=True):
        least = min(shares, key=lambda it: it[0])
        least[0] += lines_of(name)
        least[1].append(name)
    told = lambda *words: subprocess.run(["git", *words], cwd=TOP, check=True, stdout=subprocess.PIPE, text=True).stdout.strip()
    # A clone without its history doesn't know how many commits there were: there the commit's own sum tells.
    is_cut = told("rev-parse", "--is-shallow-repository") == "true"
    turn = int(told("rev-parse", "HEAD")[:8], 16) if is_cut else int(told("rev-list", "--first-parent", "--count", "HEAD"))
    return shares[turn % count][1]


def main():
    given = argparse.ArgumentParser(description=__doc__, formatter_class=argparse.RawDescriptionHelpFormatter)
    given.add_argument("--share", type=int, default=1)
    given.add_argument("--jobs", type=int, default=jobs_at_once())
    given.add_argument("--libraries")
    given.add_argument("--log", type=argparse.FileType("w"), default=open(os.devnull, "w"))
    given.add_argument("--folder", default="wrong-bodies")
    given.add_argument("names", nargs="*")
    given = given.parse_args()
    edits = {name: [Edit(it) for it in sorted((TOP / "crates" / name / given.folder).glob("*.edit"))] for name in NEEDS}
    names = given.names or shared([name for name in NEEDS if edits[name]], given.share)
    # Whichever share it is, an edit that the sources have left behind is told.
    stale = [f"{it.name}: {why}" for found in edits.values() for it in found for why in [it.why_stale()] if why]
    print(*stale, sep="\n", end="\n" * bool(stale), flush=True)
    edits = {name: [it for it in found if not it.why_stale()] for name, found in edits.items()}
    checker = Checker(given.libraries, given.log)
    for name in names:
        checker.words(name)
    with ThreadPoolExecutor(given.jobs) as pool:
        wrong = [it for found in pool.map(lambda name: tried(checker, edits[name]), [it for it in names if edits[it]]) for it in found]
    for edit, why in wrong:
        print(f"{edit.name}: {why}")
    count = sum(len(edits[name]) for name in names)
    print(f"{count} wrong bodies of {len(names)} crates: {count - len(wrong)} refused as they say, {len(wrong)} not")
    return bool(wrong or stale) or not count


if __name__ == "__main__":
    sys.exit(main())
