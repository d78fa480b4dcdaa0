#!/usr/bin/env python3
"""Proves the crates that the programs and the library stand on, lowest first, those that don't need one another side by side.

    scripts/programs/prove_program.py [btworld] [btview] [library] [jobs]

./prove calls it. With no names it is about each program of this repository that crates.txt has. What an earlier run proved
of the same sources, over the same crates and with the same toolchain, is taken as it is, also where that run was
interrupted. On standard error stands a line for each crate as it begins and as it ends, with the crates that are left and
the time that they take by what was measured on this machine. Each crate is built by `rattle build`, which writes nothing
of a crate that is not proved; the crates above a library read its statements and not its proofs. The exit status is 0 once
the programs stand in crates/NAME/out, each beside the record by which it is known, 1 where a crate is not proved, 2 where
the words name something else, and 3 where there is no toolchain. `library` is crates/btworld_c, and `jobs` crates/frame_jobs_c, of each of which an archive is made;
it takes what the programs proved, and they take what it proved."""
import fcntl
import hashlib
import os
import shutil
import signal
import subprocess
import sys
import threading
import time
from concurrent.futures import FIRST_COMPLETED, ThreadPoolExecutor, wait
from functools import lru_cache
from pathlib import Path

TOP = Path(__file__).resolve().parents[2]
sys.dont_write_bytecode = True
sys.path[:0] = [str(TOP / "scripts" / it) for it in ("shared",)]
import crates
import rattle

PROGRAMS = ("btworld", "btview")
ARCHIVES = {"library": "btworld_c", "jobs": "frame_jobs_c"}
TARGET = "x86_64-unknown-linux-gnu"
# What one job of a check takes of memory, in bytes, and how many it can use.
JOB_MEMORY = 1_500_000_000
MOST_JOBS = 4
PROCESSORS = len(os.sched_getaffinity(0))
# After so many seconds in which no crate ended, what is under way is said.
PATIENCE = 60
# How far a check gives way whose crate hardly any other waits for.
MOST_NICE = 10
# So that all of a check can be ended. Between sessions Linux parts the processors evenly, whatever their niceness.
OWN_GROUP = {"process_group": 0} if sys.version_info >= (3, 11) else {"start_new_session": True}


def say(text):
    print(f"prove: {text}", file=sys.stderr, flush=True)


KIT = rattle.kit()
if not KIT:
    say("not begun: there is no `rattle` on the path")
    sys.exit(3)
NEEDS = crates.needs()
WORDS = {it: it for it in PROGRAMS if it in NEEDS}
DEFAULT = [*WORDS]
WORDS.update({word: it for word, it in ARCHIVES.items() if it in NEEDS})
if not all(it in WORDS for it in sys.argv[1:]):
    say(f"what can be proved of crates.txt is {', '.join(WORDS)}")
    sys.exit(2)
WANTED = [WORDS[it] for it in dict.fromkeys(sys.argv[1:] or DEFAULT)]
NAMES = {name: word for word, name in WORDS.items()}


def folder(name):
    return TOP / "crates" / name


def kept(name):
    return folder(name) / "out" / "proved"


def all_crates():
    """Returns the crates of what is wanted, each after those that it needs."""
    return [*dict.fromkeys(it for wanted in WANTED for it in [*crates.below(wanted), wanted])]


def sources(name):
    for part in ("src", "specs", "proofs"):
        for file in sorted((folder(name) / part).rglob("*")):
            if file.is_file() and "tests" not in file.relative_to(TOP).parts and not file.name.endswith("tests.rt"):
                yield file


@lru_cache(None)
def own_sum(name):
    """Returns a sum of a crate's own sources."""
    found = hashlib.sha256()
    for file in sources(name):
        found.update(f"{file.relative_to(TOP)} {file.stat().st_size}\n".encode() + file.read_bytes())
    return found.hexdigest()


@lru_cache(None)
def stamp(name):
    """Returns a sum of all that a crate is built from."""
    found = hashlib.sha256((KIT / "WHAT").read_bytes())
    found.update(own_sum(name).encode())
    for library in NEEDS[name]:
        found.update((stamp(library) if library in NEEDS else library).encode())
    return found.hexdigest()


def is_end(name):
    """Tells whether a crate is no library of other crates: a program, or the archive for C."""
    return name in PROGRAMS or name in ARCHIVES.values()


def made_of(name):
    """Where a program, the archive or a library stands that is built."""
    if name in ARCHIVES.values():
        return folder(name) / "out" / f"lib{name}.a"
    return folder(name) / "out" / name if name in PROGRAMS else kept(name) / f"{name}.rlib"


def mark_of(name):
    """Returns what stands in the mark of a crate that is built: of what, and which program or archive, since `rt` leaves one there too."""
    return stamp(name) + (hashlib.sha256(made_of(name).read_bytes()).hexdigest() if is_end(name) else "")


def is_built(name):
    """Tells whether a crate stands built from these sources, later than the libraries that it names.

    A library's statements name the very builds of the crates below, so one that was built before them is of no use."""
    mark = kept(name) / "stamp"
    if not made_of(name).exists() or not mark.is_file() or mark.read_text() != mark_of(name):
        return False
    below_it = [kept(library) / "stamp" for library in NEEDS[name] if library in NEEDS]
    return all(it.is_file() and it.stat().st_mtime_ns <= mark.stat().st_mtime_ns for it in below_it)


def left_by_ci(name):
    """Returns what `rt ci` left of a crate, where it is of these sources: it writes nothing of a crate that is not proved."""
    place = folder(name) / "out" / ("rlib" if not is_end(name) else "")
    made = place / (name if is_end(name) else f"{name}.rlib")
    # `rt lib` leaves a stamp there: what it builds lies over other builds of the crates below.
    if name in ARCHIVES.values() or not made.exists() or (place / "stamp").exists():
        return None
    # (its ctime: a folder that was moved there is no newer for that)
    since = made.stat().st_ctime
    return made if all(it.stat().st_mtime <= since for it in [KIT / "WHAT", TOP / "crates.txt", *sources(name)]) else None


def take_over():
    """Takes what `rt ci` left, of crates of which and of all below which nothing is kept here: statements name the very builds below."""
    taken = []
    for name in all_crates():
        left = left_by_ci(name)
        if kept(name).exists() or left is None or any(it not in taken for it in crates.below(name)):
            continue
        kept(name).mkdir(parents=True)
        if not is_end(name):
            shutil.copytree(left, made_of(name))
        (kept(name) / "stamp").write_text(mark_of(name))
        taken.append(name)
    if taken:
        say(f"taken as `rt ci` left them: {len(taken)} crates")


def to_build():
    """Returns the crates of what is wanted that are not built, or stand on one that isn't, lowest first."""
    found = []
    for name in all_crates():
        if not is_built(name) or any(library in found for library in NEEDS[name]):
            found.append(name)
    return found


@lru_cache(None)
def length(name):
    """Returns a crate's lines of code: a check's time goes by these, and hardly by the lines of its lemmas."""
    return sum(file.read_bytes().count(b"\n") for file in sources(name) if file.suffix == ".rt")


@lru_cache(None)
def behind(name):
    """Returns the lines of code of the longest chain of crates of what is wanted from this one upwards."""
    above = [it for it in all_crates() if name in NEEDS[it]]
    return length(name) + max((behind(it) for it in above), default=0)


def words_of(name, jobs):
    root, made = ("main", f"{name}.o") if name in PROGRAMS else ("lib", made_of(name).name)
    words = [*rattle.words("build", name, kept, root), "--jobs", str(jobs), "-o", str(kept(name) / made)]
    if not is_end(name):
        return [*words, "--statements"]
    kind = ["--crate-type", "staticlib"] if name in ARCHIVES.values() else []
    return [*words, *kind, "--toolchain", f"{KIT}/toolchain", "--backend", "llvm"]


running = set()
is_over = threading.Event()


def stop_all():
    """Ends what runs, and lets nothing begin."""
    is_over.set()
    for tool in [*running]:
        try:
            os.killpg(tool.pid, signal.SIGKILL)
        except ProcessLookupError:
            pass


def run(words, name):
    """Runs a tool of the kit in a crate's folder, and returns its status; what it says goes to the crate's log."""
    if is_over.is_set():
        return 1
    with open(kept(name) / "log", "ab") as log:
        how = {"cwd": folder(name), "stdin": subprocess.DEVNULL, "stdout": log, "stderr": log}
        tool = subprocess.Popen(words, **OWN_GROUP, **how)
        running.add(tool)
        if is_over.is_set():
            stop_all()
        status = tool.wait()
        running.discard(tool)
    return status


def build(name, jobs, niceness):
    """Proves a crate and builds its library, the program or the archive, and returns the seconds that it took, or None."""
    shutil.rmtree(kept(name), ignore_errors=True)
    kept(name).mkdir(parents=True)
    since = time.monotonic()
    tool = ["nice", "-n", str(niceness), f"{KIT}/bin/rattle"]
    status = run([*tool, *words_of(name, jobs)], name)
    if status == -signal.SIGKILL and jobs > 1 and not is_over.is_set():
        say(f"{name}: the check was killed, most likely for memory: once more with one job")
        status = run([*tool, *words_of(name, 1)], name)
    if status:
        return None
    built = kept(name) / made_of(name).name
    if name in PROGRAMS:
        made, linked = kept(name) / f"{name}.o", built
        words = ["--target", TARGET, "--toolchain", f"{KIT}/toolchain", "-o", str(linked), str(made)]
        if run([f"{KIT}/bin/rattle-link", *words, f"{KIT}/c/libos_c.a", f"{KIT}/c/liblibc_c.a"], name):
            return None
    if own_sum.__wrapped__(name) != own_sum(name):
        say(f"{name}: its sources have changed since this began")
        return None
    if is_end(name):
        os.replace(built, made_of(name))
    (kept(name) / "stamp").write_text(mark_of(name))
    seconds = time.monotonic() - since
    took(name).write_text(f"{seconds:.1f}")
    return seconds


def jobs_at_once():
    """Returns how many jobs run at a time: twice the processors, since a check that begins uses one, where memory allows."""
    with open("/proc/meminfo") as it:
        free = next(int(line.split()[1]) * 1024 for line in it if line.startswith("MemAvailable"))
    return max(1, min(2 * PROCESSORS, free // JOB_MEMORY))


def share_of(name, begun, room):
    """Returns with how many jobs and how nice a crate is checked beside those that have begun.

    A job more takes processor time of its own, for what all jobs of a check have to know. So only the crate that the longest
    chain waits for gets as many as it can use; another one gets those for which a processor is idle, or one, and gives way
    the more, the shorter the chain that waits for it."""
    used = sum(jobs for _, jobs in begun.values())
    longest = max(behind(it) for it in [name, *(other for other, _ in begun.values())])
    leads = behind(name) == longest
    wanted = MOST_JOBS if leads else max(1, min(MOST_JOBS, PROCESSORS - used))
    return min(wanted, room - used), round(MOST_NICE * (1 - behind(name) / longest))


def took(name):
    """Where it stands how many seconds the crate's last proof on this machine took."""
    return folder(name) / "out" / "seconds"


@lru_cache(None)
def work(name):
    """Returns by how much a check takes longer than another: by its lines of code, and the more, the more crates it stands on."""
    under = len(crates.below(name))
    return length(name) * (1 + under / 20) + 15 * under + 50


def time_left(missing, since):
    """Returns in words how long the crates that are missing take, by what was measured on this machine: no less than the longest
    chain of them, and as many at a time as there are processors. Those under way have the time at which they began."""
    # An empty file is one whose writing was interrupted.
    measured = {it: float(took(it).read_text()) for it in all_crates() if took(it).exists() and took(it).stat().st_size}
    if not measured:
        return "nothing was measured on this machine yet"
    rate = sum(measured.values()) / sum(map(work, measured))
    chain, whole = {}, 0
    for name in all_crates():
        seconds = 0
        if name in missing:
            seconds = measured.get(name) or rate * work(name)
            seconds = max(0, seconds - (time.monotonic() - since[name] if name in since else 0))
        whole += seconds
        chain[name] = seconds + max((chain[it] for it in NEEDS[name] if it in chain), default=0)
    minutes = round(max(*chain.values(), whole / PROCESSORS) / 60)
    return f"about {minutes} min" if minutes else "less than a minute"


def build_all(left):
    """Builds crates, those with the longest chain above them first. Returns whether all are proved."""
    room, begun, since, missing = jobs_at_once(), {}, {}, set(left)
    left = sorted(left, key=behind, reverse=True)

    def what_is_left():
        more = f"crate{'s' * (len(missing) > 1)} left, {time_left(missing, {name: since[name] for name, _ in begun.values()})}"
        return f"{len(missing)} {more}" if missing else "no crate left"

    say(what_is_left())
    with ThreadPoolExecutor(room) as pool:
        # The pool waits for what runs as it is left.
        try:
            while left or begun:
                for name in [it for it in left if not missing.intersection(crates.below(it))]:
                    jobs, niceness = share_of(name, begun, room)
                    if jobs < 1:
                        break
                    left.remove(name)
                    say(f"{name}: begins")
                    since[name] = time.monotonic()
                    begun[pool.submit(build, name, jobs, niceness)] = name, jobs
                done = wait(begun, PATIENCE, FIRST_COMPLETED).done
                if not done:
                    say(f"under way: {', '.join(name for name, _ in begun.values())}; {what_is_left()}")
                for ended in done:
                    name, _ = begun.pop(ended)
                    seconds = ended.result()
                    if seconds is None:
                        say(f"{name}: not proved; the last lines of its check:")
                        print(*(kept(name) / "log").read_text(errors="replace").splitlines()[-20:], sep="\n", file=sys.stderr)
                        return False
                    missing.discard(name)
                    say(f"{name}: proved after {seconds:.0f} s; {what_is_left()}")
            return True
        finally:
            if begun:
                stop_all()


def sums(name):
    """Returns the lines by which the launcher tells whether a program is of these sources."""
    return subprocess.run([TOP / "scripts/programs/sums.sh", name], check=True, stdout=subprocess.PIPE).stdout


def keep_copy(name, record):
    """Keeps a program and its record where `rt ci` leaves them: it takes away all that stands in a crate's out/."""
    if name not in PROGRAMS:
        return
    place = TOP / "out/proved" / name
    place.mkdir(parents=True, exist_ok=True)
    (place / "built_from").unlink(missing_ok=True)
    shutil.copy2(made_of(name), place / f"{name}.part")
    os.replace(place / f"{name}.part", place / name)
    (place / "built_from").write_bytes(record)


def main():
    for number in (signal.SIGTERM, signal.SIGHUP, signal.SIGINT):
        signal.signal(number, lambda number, _: sys.exit(128 + number))
    # A second run waits for the first, and then finds what that has built.
    with open(TOP / "crates.txt") as lock:
        try:
            fcntl.flock(lock, fcntl.LOCK_EX | fcntl.LOCK_NB)
        except BlockingIOError:
            say("another run is under way, and this one waits for it")
            fcntl.flock(lock, fcntl.LOCK_EX)
        before = {name: sums(name) for name in WANTED}
        take_over()
        left = to_build()
        if left:
            say(f"proving {len(left)} of the {len(all_crates())} crates of {' and '.join(NAMES[it] for it in WANTED)}; from nothing that takes half an hour on four processors")
            try:
                if not build_all(left):
                    return 1
            except SystemExit:
                say("interrupted: what is proved is kept, and the next ./prove goes on from there")
                raise
        for name in WANTED:
            if sums(name) != before[name]:
                say(f"{NAMES[name]}: its sources have changed since this began")
                return 1
            own = hashlib.sha256(made_of(name).read_bytes()).hexdigest()
            record = before[name] + f"{own}  -\n".encode()
            (folder(name) / "out" / "built_from").write_bytes(record)
            keep_copy(name, record)
            say(f"{NAMES[name]} is proved and built: {made_of(name).relative_to(TOP)}" if name in ARCHIVES.values() else f"{name} is proved and built, and ./{name} starts it")
    return 0


if __name__ == "__main__":
    sys.exit(main())
