#!/usr/bin/env python3
"""Tries what a fresh clone starts: with the kit and without it, with a source changed, and where nothing can be written.

    scripts/programs/try_launcher.py

The clone is of the commit that is checked out, with what of it stands changed here, and with a dist/ that scripts/programs/dist.sh has just built of
these sources. Of it the first frames, a page and the callers of the library have to come in seconds, without the kit on the path and with
it, and to be what the proved program writes. Then a source is changed, by a comment: --help, --version and refused words are answered at
once; a call that is interrupted leaves nothing; of three calls at once one compiles and the others wait for it; from then on each call is
answered at once, from a checkout that can't be written too, and standard output, standard error without the launcher's own lines, and
status are those of the proved program. A dist/ of other sources, and one with a byte changed, is found by --check. A line tells what is
wrong, the last line how much was looked at; the status is 1 where something is wrong."""
import os
import re
import shutil
import signal
import subprocess
import sys
import tempfile
import time
from pathlib import Path

TOP = Path(__file__).resolve().parents[2]
PROVED = TOP / "crates/btworld/out/btworld"
OF_LAUNCHER = re.compile(rb"^btworld: .*\n", re.M)
FRAMES = "play levels/warehouse.json --script levels/warehouse.script --frames 70 --workers 4"
DOOR = "levels/door.json"
NOT_THERE = [
    f"{command}{options}"
    for command in ("check nothing.json", f"replay {DOOR} nothing.log", "replay nothing.json nothing.log", "check levels")
    + tuple(f"play {level} --frames 3 --workers 1" for level in ("nothing.json", "./levels"))
    for options in ("", *((" --script nothing.script",) if not command.startswith("check") else ()))
]
PLAYED = [f"check {DOOR}", f"play {DOOR} --frames 5 --workers 2 --script levels/door.script", FRAMES]
FULL = [f"check {DOOR}", f"play {DOOR} --frames 5 --workers 2"]
# What never begins a compile: help, and words that are refused.
AT_ONCE = ["--help", "--version", "play --help", "nothing", "play", f"play {DOOR}", f"play {DOOR} --frames 5 --workers 17", "check", f"check {DOOR} more", f"play {DOOR} --frames"]
# Longer than any of these takes where nothing is compiled, on a busy machine.
SOON = 10
looked = wrong = 0


def look(fact, what):
    global looked, wrong
    looked += 1
    if not fact:
        wrong += 1
        print(f"wrong: {what}", flush=True)


def call(words, at, environment=None, to=None, user=()):
    """Returns status, standard output and error of a command, and the seconds that it took."""
    since = time.monotonic()
    with open(to, "wb") if to else tempfile.TemporaryFile() as out:
        ran = subprocess.run([*user, *map(str, words)], cwd=at, env=environment, stdin=subprocess.DEVNULL, stdout=out, stderr=subprocess.PIPE)
        wrote = b""
        if not to:
            out.seek(0)
            wrote = out.read()
    return ran.returncode, wrote, ran.stderr, time.monotonic() - since


def without_kit(room):
    """Returns an environment whose path has all that this one's has, but for the kit."""
    folder = room / "path"
    folder.mkdir()
    for place in reversed(os.environ["PATH"].split(":")):
        for it in Path(place).iterdir() if os.path.isdir(place) else ():
            if it.name not in ("rt", "rattle") and os.access(it, os.X_OK):
                link = folder / it.name
                link.unlink(missing_ok=True)
                link.symlink_to(it)
    return {**os.environ, "PATH": str(folder)}


def clone(at):
    """Makes a clone with what stands here, changed or not, and a dist/ of these sources."""
    subprocess.run(["git", "clone", "-q", "--no-hardlinks", TOP, at], check=True)
    changed = subprocess.run(["git", "ls-files", "-mo", "--exclude-standard"], cwd=TOP, check=True, stdout=subprocess.PIPE, text=True).stdout.splitlines()
    for it in changed:
        (at / it).parent.mkdir(parents=True, exist_ok=True)
        if (TOP / it).exists():
            shutil.copy2(TOP / it, at / it)
        else:
            (at / it).unlink(missing_ok=True)
    shutil.rmtree(at / "dist", ignore_errors=True)
    made = call([TOP / "scripts/programs/dist.sh", "--into", at / "dist"], TOP)
    if made[0]:
        sys.exit(f"try_launcher: there is no dist/ to try:\n{made[2].decode(errors='replace')}")


def starts(at, environment, how, room):
    """Looks whether a clone starts at once, and its callers are built at once."""
    wanted = call([PROVED, *FRAMES.split()], TOP)
    log = room / f"run-{how.replace(' ', '-')}.log"
    status, wrote, told, seconds = call(["./btworld", *FRAMES.split(), "--log", log], at, environment)
    look((status, wrote, told) == (0, wanted[1], b"") and seconds < SOON, f"{how}: first frames, status {status}, {seconds:.1f} s, {told[-300:]}")
    look(log.exists() and call([PROVED, "replay", at / "levels/warehouse.json", log, "--script", at / "levels/warehouse.script"], TOP)[:2] == (0, wanted[1]), f"{how}: the log")
    page = call(["./btview", "page", "levels/warehouse.json", log, "--script", "levels/warehouse.script"], at, environment)
    look(page[0] == 0 and b"<html" in page[1] and page[3] < SOON, f"{how}: a page, status {page[0]}, {page[3]:.1f} s, {page[2][-300:]}")
    made = call(["make", "-C", "examples", "libbtworld.a", "libbtworld.so", "replay", "lockstep"], at, environment)
    look(made[0] == 0 and made[3] < 3 * SOON, f"{how}: make, status {made[0]}, {made[3]:.1f} s, {made[2][-500:]}")
    look(b"prove" not in made[1], f"{how}: make proves")
    call(["make", "-C", "examples", "clean"], at, environment)


def changed(at, room):
    """Looks at a clone one of whose sources is changed."""
    source = at / "crates/grid_world/src/lib.rt"
    source.write_text(source.read_text() + "// changed\n")
    home = room / "home"
    home.mkdir()
    environment = {**os.environ, "HOME": str(home)}
    environment.pop("XDG_CACHE_HOME", None)
    for words in AT_ONCE:
        wanted = call([PROVED, *words.split()], TOP)
        status, wrote, told, seconds = call(["./btworld", *words.split()], at, environment)
        look((status, wrote, told) == wanted[:3] and seconds < SOON, f"changed: btworld {words}: status {status}, {seconds:.1f} s, {told[-200:]}")

    def compiled():
        return [*(at / "out").rglob("built_from"), *home.rglob("built_from")]

    look(not compiled(), "changed: words that are answered at once are compiled for")
    cut = subprocess.Popen(["./btworld", "check", DOOR], cwd=at, env=environment, stdin=subprocess.DEVNULL, stdout=subprocess.DEVNULL, stderr=subprocess.DEVNULL, start_new_session=True)
    time.sleep(8)
    os.killpg(cut.pid, signal.SIGINT)
    look(cut.wait(60) != 0 and not compiled(), f"changed: an interrupted call ends with {cut.returncode} and leaves {compiled()}")
    three = [subprocess.Popen(["./btworld", "check", DOOR], cwd=at, env=environment, stdin=subprocess.DEVNULL, stdout=subprocess.PIPE, stderr=subprocess.PIPE) for _ in range(3)]
    answers = [it.communicate(timeout=1200) + (it.returncode,) for it in three]
    right = call([PROVED, "check", DOOR], TOP)
    look(all((it[0], it[2]) == (right[1], 0) for it in answers), f"changed: three calls at once: {answers}")
    look(sum(b"are compiled now" in it[1] for it in answers) == 1, f"changed: more than one of three calls compiles: {answers}")
    for words, to in [(it, None) for it in NOT_THERE + PLAYED + AT_ONCE] + [(it, "/dev/full") for it in FULL]:
        wanted = call([PROVED, *words.split()], at, to=to)
        status, wrote, told, seconds = call(["./btworld", *words.split()], at, environment, to)
        same = (status, wrote, OF_LAUNCHER.sub(b"", told)) == (wanted[0], wanted[1], OF_LAUNCHER.sub(b"", wanted[2]))
        look(same and seconds < SOON, f"changed: btworld {words}{' > ' + to if to else ''}: {status, wrote[-200:], told[-200:]}, wanted {wanted[:3]}, in {seconds:.1f} seconds")
    # Nobody's calls can't write to the checkout, and have no folder of their own.
    if os.geteuid() == 0 and shutil.which("setpriv"):
        nobody = ["setpriv", "--reuid=65534", "--regid=65534", "--clear-groups"]
        room.chmod(0o755)
        status, wrote, told, seconds = call(["./btworld", *PLAYED[1].split()], at, {**environment, "HOME": "/nowhere"}, user=nobody)
        look((status, wrote) == call([PROVED, *PLAYED[1].split()], TOP)[:2] and seconds < SOON, f"read-only: status {status}, {seconds:.1f} s, {told[-300:]}")


def compares(at):
    """Looks whether --check finds a dist/ of other bytes, and one of other sources."""
    folder = at / "dist"
    for name, old in ((it, (folder / it).read_bytes()) for it in ("btworld", "libbtworld.a", "SUMS")):
        (folder / name).write_bytes(old[:1000] + bytes([old[1000] ^ 1]) + old[1001:] if len(old) > 1000 else old.replace(b"0", b"1", 1))
        found = call([TOP / "scripts/programs/dist.sh", "--check", folder], TOP)
        look(found[0] == 1 and name.encode() in found[1], f"--check of a {name} with a byte changed: status {found[0]}, {found[1][-300:]}")
        (folder / name).write_bytes(old)
    found = call([TOP / "scripts/programs/dist.sh", "--check", folder], TOP)
    look(found[0] == 0, f"--check of what was built: status {found[0]}, {found[1][-300:]}")


def main():
    if not os.access(PROVED, os.X_OK):
        print("try_launcher: there is no proved program; ./prove builds it", file=sys.stderr)
        return 3
    with tempfile.TemporaryDirectory() as room:
        room = Path(room)
        at = room / "deep/in/a/clone"
        at.parent.mkdir(parents=True)
        clone(at)
        compares(at)
        starts(at, without_kit(room), "without the kit", room)
        starts(at, None, "with the kit", room)
        changed(at, room)
    print(f"{looked} looks, {wrong} wrong")
    return 1 if wrong else 0


if __name__ == "__main__":
    sys.exit(main())
