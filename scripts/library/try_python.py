#!/usr/bin/env python3
"""Installs the Python package into empty environments and runs its tests there, on each Python from 3.8 to 3.13 that is found.

    scripts/library/try_python.py [LIBRARY]

LIBRARY is the shared library that goes into the package; where none is given, that of dist/, if it is of these sources, else one that
examples/Makefile makes. Pythons are those on the path and pyenv's. Each gets a virtual environment with nothing in it, builds the wheel with no network and
with the Rattle kit hidden, installs it and runs the tests of python/tests over it, with warnings as errors. All wheels have to be the same
bytes. On the first Python that has numpy the tests run again in an environment that sees that Python's packages: so with numpy, and with
gymnasium, pettingzoo and distributed where these are installed. Then, with it: editable installs, mypy --strict, the commands of
python/README.md, and the frames of all levels and what the search finds, against the plain player (scripts/runs/plain_player.py).

A test that fails, and a package that loses the signals, are tried too: both have to be found. The last line but one says what is left out, and
why. The status is 1 where something is wrong."""
import contextlib
import os
import re
import shutil
import signal
import subprocess
import sys
import tempfile
from concurrent.futures import ThreadPoolExecutor
from pathlib import Path

TOP = Path(__file__).resolve().parents[2]
PACKAGE, SCRIPTS, FILE = TOP / "python", TOP / "scripts", "libbtworld.so.2"
LEVELS = sorted((TOP / "levels").glob("*.json"))
PYTHONS = ["3.8", "3.9", "3.10", "3.11", "3.12", "3.13"]
TESTS = sorted(it.stem for it in (PACKAGE / "tests").glob("test_*.py"))
# What the search finds first: of a level, by these signals.
SEARCHES = [("door", "a", "A S .*"), ("airlock", "ab", "A . .* [*]")]
STEPPING = """import sys
from pathlib import Path
from btworld import Game
game = Game.open(Path(sys.argv[1]), Path(sys.argv[2]) if len(sys.argv) > 3 else "")
for _ in range(int(sys.argv[-1])):
    game.step_script()
    print(game.text(), end="")
"""
# Runs tests, and says last how many there are and how many were left out. What unittest says that it ran is no number to compare: in
# Python 3.12.1 it doesn't count those that are skipped.
TESTING = """import sys, unittest
tests = unittest.defaultTestLoader.loadTestsFromNames(sys.argv[1:])
count = tests.countTestCases()
made = unittest.TextTestRunner().run(tests)
print(*sorted({f"left out: {why}" for _, why in made.skipped}), f"{count} tests, {len(made.skipped)} of them left out", sep="\\n")
sys.exit(not made.wasSuccessful())
"""

sys.dont_write_bytecode = True
sys.path[:0] = [str(TOP / "scripts" / it) for it in ("runs",)]
import compare_with_plain as plays

wrong, left_out = 0, []


def look(fact, what):
    global wrong
    if not fact:
        wrong += 1
        print(f"wrong: {what}", flush=True)


def surroundings(**more):
    """The environment of a user: no network, no kit, and nothing of this repository on Python's path."""
    kept = {name: it for name, it in os.environ.items() if not name.startswith(("PYTHON", "PIP_", "BTWORLD_", "VIRTUAL_ENV"))}
    pip = {"PIP_NO_INDEX": "1", "PIP_DISABLE_PIP_VERSION_CHECK": "1", "PIP_ROOT_USER_ACTION": "ignore", "PYTHONDONTWRITEBYTECODE": "1"}
    return {**kept, **pip, "PATH": "/usr/bin:/bin", **more}


def call(*words, cwd=PACKAGE, **env):
    words = [str(it) for it in words]
    return subprocess.run(words, stdin=subprocess.DEVNULL, stdout=subprocess.PIPE, stderr=subprocess.STDOUT, cwd=str(cwd),
                          env=surroundings(**env), timeout=1800)  # fmt: skip


def need(*words, **how):
    """Runs what has to succeed, and returns what it writes."""
    made = call(*words, **how)
    text = made.stdout.decode(errors="replace")
    if made.returncode:
        raise RuntimeError(f"{' '.join(map(str, words))}: status {made.returncode}\n{text}")
    return text


def pythons():
    """Returns the Pythons that are there, by their version; those of pyenv too."""
    found = {}
    for version in PYTHONS:
        pyenv = sorted(Path(os.environ.get("PYENV_ROOT") or Path.home() / ".pyenv").glob(f"versions/{version}.*/bin/python3"))
        named = [Path(it) for it in (f"/usr/bin/python{version}", f"/usr/local/bin/python{version}") if os.path.exists(it)]
        if pyenv or named:
            found[version] = [*pyenv[-1:], *named]
        else:
            left_out.append(f"Python {version} (it isn't there)")
    return found


def has(python, package):
    return call(python, "-c", f"import {package}").returncode == 0


def library(folder):
    """Returns the path of the library that goes into the package."""
    if len(sys.argv) > 1:
        return Path(sys.argv[1]).resolve()
    dist = subprocess.run([str(SCRIPTS / "programs/in_dist.sh"), FILE], stdout=subprocess.PIPE)
    if dist.returncode == 0:
        return Path(dist.stdout.decode().strip())
    subprocess.run(["make", "-s", "-C", str(TOP / "examples"), "install", f"PREFIX={folder}"], check=True)
    return folder / "lib" / FILE


def environment(python, folder, wheel_of, *options):
    """Makes a virtual environment with the package in it, and returns its Python and the wheel."""
    need(python, "-m", "venv", *options, folder / "venv")
    own = folder / "venv/bin/python"
    need(own, "-m", "pip", "wheel", "-q", ".", "-w", folder / "wheel", BTWORLD_LIBRARY=str(wheel_of))
    (wheel,) = (folder / "wheel").iterdir()
    need(own, "-m", "pip", "install", "-q", "--no-deps", wheel)
    return own, wheel


def tested(own, names=TESTS):
    """Runs the tests, and returns whether they pass, and the lines that they write: the last says how many there are."""
    made = call(own, "-W", "error", "-c", TESTING, *names, cwd=PACKAGE / "tests")
    lines = made.stdout.decode(errors="replace").splitlines()
    is_well = made.returncode == 0 and " tests, " in lines[-1]
    return is_well, lines


def try_one(version, python, folder, lib):
    """An empty environment, in which nothing but the package is installed."""
    try:
        own, wheel = environment(python, folder, lib)
        is_well, lines = tested(own)
        print(f"Python {version}: {lines[-1]}", flush=True)
        look(is_well, f"Python {version}: tests\n" + "\n".join(lines[-60:]))
        where = need(own, "-c", "import btworld._library as it; print(it.PATH)").strip()
        look(where.endswith(f"site-packages/btworld/{FILE}"), f"Python {version}: the library of {where} is used")
        need(own, "-m", "pip", "check")
        need(folder / "venv/bin/btworld-sweep", TOP / "levels/door.json", "--games", 5)
        return (wheel.name, wheel.read_bytes()), lines[-1]
    except RuntimeError as error:
        look(False, f"Python {version}: {error}")
        return None


def try_packages(python, folder, lib):
    """The tests with the packages of a Python that has numpy, and what else is tried once. Returns the environment's Python."""
    own, _ = environment(python, folder, lib, "--system-site-packages")
    lacking = [it for it in ("gymnasium", "pettingzoo", "distributed") if not has(own, it)]
    if lacking:
        left_out.append(f"{', '.join(lacking)} (not installed: {python} doesn't have them)")
    if call(own, "-c", "import btworld._library as it, sys; sys.exit(not it.exports('look_all'))").returncode:
        left_out.append(f"many games at once ({lib} is no version 2.1)")
    is_well, lines = tested(own)
    print(f"with numpy: {lines[-1]}", *(it for it in lines if "killed by -9" in it or it.startswith("left out: ")), sep="\n    ", flush=True)
    look(is_well, "with numpy: tests\n" + "\n".join(lines[-60:]))
    return own


def try_editable(python, folder, lib):
    """pip install of the folder and pip install -e, with and without build isolation."""
    need(python, "-m", "venv", folder / "venv")
    own = folder / "venv/bin/python"
    for words in (["."], ["--no-build-isolation", "."], ["-e", "."]):
        need(own, "-m", "pip", "install", "-q", *words, BTWORLD_LIBRARY=str(lib))
        where = need(own, "-c", "import btworld; print(btworld.__file__)", BTWORLD_LIBRARY=str(lib))
        look((str(PACKAGE) in where) == (words == ["-e", "."]), f"pip install {' '.join(words)}: {where}")
        need(own, "-m", "pip", "uninstall", "-q", "-y", "btworld")


def try_types(folder):
    mypy = shutil.which("mypy", path="/usr/bin:/bin") or shutil.which("mypy")
    if not mypy:
        left_out.append("mypy (it isn't there)")
        return
    # Strict, but for ignored lines of packages that are not installed: pyproject.toml says so.
    made = call(mypy, "--python-version", "3.8", "--config-file", "pyproject.toml", "--cache-dir", folder / "mypy", "src/btworld")
    look(made.returncode == 0, f"mypy: {made.stdout.decode()}")


def try_frames(own, folder):
    """The frames of each level, with and without its script, and the frames that the search finds are the plain player's."""
    count = 0
    for level in LEVELS:
        script = level.with_suffix(".script")
        for pressed in [None, script] if script.exists() else [None]:
            (status, text, _), _, _ = plays.answers_of((level.read_bytes(), pressed.read_bytes() if pressed else b"", 60))
            made = call(own, "-c", STEPPING, level, *([pressed] if pressed else []), 60)
            look(status == 0 and made.stdout == text and text, f"{level.name}: Python shows other bytes than the plain player")
            count += 1
    for level, letters, line in SEARCHES:
        path = TOP / f"levels/{level}.json"
        made = subprocess.run([str(own), "-m", "btworld.search", str(path), letters, line, "60"], stdout=subprocess.PIPE,
                              stderr=subprocess.PIPE, env=surroundings())  # fmt: skip
        frames = int(re.search(rb"frame (\d+)", made.stderr)[1]) if made.returncode == 0 else 0
        (_, text, _), _, _ = plays.answers_of((path.read_bytes(), made.stdout, frames))
        shown = [any(re.fullmatch(line, it) for it in frame.splitlines()) for frame in text.decode().split("frame ")[1:]]
        look(frames and shown.index(True) == frames - 1, f"btworld.search {level}: {frames} frames, {made.stderr!r}")
    return count


def try_readme(own, lib):
    """The commands of the README, by Python of an environment that sees the packages of the system."""
    if not all(has(own, it) for it in ("numpy", "distributed")):
        left_out.append("the commands of python/README.md (they want numpy and distributed)")
        return
    words = [sys.executable, str(SCRIPTS / "documents/readme_commands.py"), str(PACKAGE / "README.md")]
    env = surroundings(PATH=f"{own.parent}:/usr/bin:/bin", BTWORLD_LIBRARY=str(lib))
    made = subprocess.Popen(words, stdin=subprocess.DEVNULL, stdout=subprocess.PIPE, stderr=subprocess.STDOUT, env=env, start_new_session=True)
    try:
        text = made.communicate(timeout=1800)[0].decode(errors="replace")
    finally:
        # A cluster that a failed command left behind is in its process group.
        with contextlib.suppress(ProcessLookupError):
            os.killpg(made.pid, signal.SIGTERM)
    print(f"python/README.md: {text.strip().splitlines()[-1]}", flush=True)
    look(made.returncode == 0, f"python/README.md: {text}")


def look_at_itself(own, folder):
    """A test that fails, and a package that loses the signals, have to be found."""
    copied = folder / "tests"
    shutil.copytree(str(PACKAGE / "tests"), str(copied))
    (copied / "test_made.py").write_text("import unittest\nclass Made(unittest.TestCase):\n    def test(self):\n        self.fail()\n")
    made = call(own, "-W", "error", "-m", "unittest", "test_made", cwd=copied)
    look(made.returncode != 0, "a test that fails isn't found")
    package = Path(need(own, "-c", "import btworld; print(btworld.__path__[0])").strip())
    source = package / "game.py"
    kept = source.read_text()
    source.write_text(kept.replace("library.step(self._handle, mask_of(signals))", "library.step(self._handle, 0)"))
    is_well, _ = tested(own, ["test_game"])
    source.write_text(kept)
    look(not is_well, "a package that passes no signals on isn't found")


def main():
    with tempfile.TemporaryDirectory() as place:
        room = Path(place)
        lib, found = library(room / "prefix"), pythons()
        if not found:
            sys.exit("there is no Python from 3.8 to 3.13")
        with ThreadPoolExecutor(len(os.sched_getaffinity(0))) as pool:
            tried = [pool.submit(try_one, version, them[0], room / version, lib) for version, them in found.items()]
            made = [it.result() for it in tried if it.result()]
        wheels, counts = {wheel for wheel, _ in made}, {count for _, count in made}
        look(len(wheels) == 1, f"{len(wheels)} different wheels")
        look(len(counts) == 1, f"not the same tests on all Pythons: {counts}")
        own = room / [*found][-1] / "venv/bin/python"
        look_at_itself(own, room)
        with_numpy = next((it for them in found.values() for it in them if has(it, "numpy")), None)
        if with_numpy:
            own = try_packages(with_numpy, room / "packages", lib)
        else:
            left_out.append("numpy, and all that needs it (no Python here has it)")
        try_editable([*found.values()][-1][0], room / "editable", lib)
        try_types(room)
        count = try_frames(own, room)
        try_readme(own, lib)
    print(f"left out: {'; '.join(left_out) or 'nothing'}")
    print(f"{len(found)} Pythons, {len(TESTS)} files of tests each, {count} games against the plain player, {wrong} wrong")
    return int(wrong != 0)


if __name__ == "__main__":
    sys.exit(main())
