#!/usr/bin/env python3
"""Builds and plays all of btjobs over libbtjobs.a: the C++ headers, the Rust crate, the Python package, what is installed, and the manual.

    scripts/btjobs/try_btjobs.py [--library FILE] [--long] [--only WORD] [--jobs N]

The library is that of `make -C examples/btjobs`, or FILE. It is installed into a folder of its own, and from there by pkg-config and by
CMake's find_package programs in C and C++ are built and run. Each header compiles alone, by g++ and clang++; wrong use compiles with
neither, and is refused in words, in Rust too. The tests run as they are, by clang++ as C++20, and under the thread, address and
undefined-behaviour sanitizers; runs on threads under helgrind. Random games come to the same by a plain loop, on threads, replayed and in
drawn orders. Planted mistakes in C++, Rust and Python are each found and named rightly, and clean games show none. A scheduler is judged.
Each growth of memory is refused in turn, and the board goes on. Logs are shown by btview, where it is built. The games of the manual
(examples/btjobs/README.md) and of the READMEs of crate and package are compiled and played, and write what stands there; they play a log
that a program in C wrote.

With --long there are 1,000 random games, 10,000 orders of each clean game, and 300 runs on threads beside each mistake, whose tables are
printed. Without it, it takes some two minutes on four processors. What wants a tool that isn't there is left out; the last line but one
says what, and the last one counts."""
import argparse
import os
import re
import shutil
import subprocess
import sys
import tempfile
import threading
from concurrent.futures import ThreadPoolExecutor
from pathlib import Path

TOP = Path(__file__).resolve().parents[2]
HERE, EXAMPLES, INCLUDE, CRATE = TOP / "scripts/btjobs", TOP / "examples/btjobs", TOP / "include", TOP / "rust/btjobs"
WARNS = ["-Wall", "-Wextra", "-Werror"]
RUSTC = (1, 73)  # as in Cargo.toml
PUBLIC = ["btjobs.hpp", "btjobs_finder.hpp", "btjobs_judge.hpp"]
# The page that has a game in this language.
MANUALS = {"cpp": "examples/btjobs/README.md", "rust": "rust/btjobs/README.md", "python": "python/README.md"}

# Wrong use of the crate: what rustc has to say of it.
WRONG_RUST = [
    ("writes into the world", "cannot borrow `*v.world` as mutable", "fn think(&self, v: &View<Self>, _: &[()]) -> Tick<u8, Never> { v.world[0] = 1; Tick::Thought(0) }", ""),
    ("keeps the world", "lifetime may not live long enough", "fn think(&self, v: &View<Self>, _: &[()]) -> Tick<u8, Never> { let _: &'static Vec<u8> = v.world; Tick::Thought(0) }", ""),
    ("changes the game", "cannot assign to `self.0`", "fn think(&self, _: &View<Self>, _: &[()]) -> Tick<u8, Never> { self.0 = 1; Tick::Thought(0) }", ""),
    ("shares a cell", "cannot be shared between threads safely", "fn think(&self, _: &View<Self>, _: &[()]) -> Tick<u8, Never> { Tick::Thought(0) }", "std::cell::Cell<u8>"),
]
GAME = """use btjobs::*;
struct G(%s);
impl Game for G {
    type World = Vec<u8>;
    type Signals = ();
    type Thought = u8;
    type Question = Never;
    type Answer = ();
    type Band = u8;
    fn start(&self) -> Vec<u8> { vec![0; 4] }
    fn signals(&self, _: u32) {}
    %s
    fn turn(&self, _: &Start<Self>, t: Vec<u8>) -> Vec<u8> { t }
    fn draw(&self, w: &Vec<u8>, band: u32) -> u8 { w[band as usize] }
}
fn main() {}
"""

# Writes the log of a run by 20 threads, of 300 thinks a frame, each of which asks once.
WIDE_RUN = """
import sys
from btjobs import Ask, Game, Settings, run, write_log
class Asking(Game):
    def think(self, view, answers): return sum(answers) if answers else Ask(view.agent)
    def answer(self, view, question): return question
n = Settings(frames=3, agents=300, bands=20, most_questions=1)
write_log(open(sys.argv[1], "w"), n, 20, run(Asking(), n, 20).log, "of a run")
"""


class Failed(Exception):
    """What a check found wrong."""


class Tried:
    """The checks, what they need, and what came of them."""
    def __init__(self, words, room):
        self.words, self.room, self.passed, self.failed, self.left_out = words, room, 0, [], {}
        self.lock = threading.Lock()
        self.library, self.installed = room / "lib/libbtjobs.a", room / "installed"
        shared = room / "lib/libbtjobs.so"
        self.env = {**os.environ, "PYTHONDONTWRITEBYTECODE": "1", "BTJOBS_LIBRARY": str(shared), "BTJOBS_LIB_DIR": str(room / "lib"),
                    "CARGO_TARGET_DIR": str(room / "target"), "PKG_CONFIG_PATH": str(self.installed / "lib/pkgconfig"), "LD_LIBRARY_PATH": str(self.installed / "lib")}

    def run(self, *command, status=0, folder=None, seconds=1500):
        """Runs a command, which has to end with this status, and returns all that it wrote."""
        ran = subprocess.run([str(word) for word in command], cwd=folder or self.room, env=self.env, stdin=subprocess.DEVNULL, stdout=subprocess.PIPE,
                             stderr=subprocess.STDOUT, timeout=seconds)
        text = ran.stdout.decode(errors="replace")
        if ran.returncode != status:
            raise Failed(f"status {ran.returncode} of {' '.join(map(str, command))}\n{text[-3000:]}")
        return text

    def wants(self, text, *words):
        for word in words:
            if word not in text:
                raise Failed(f"not there: {word}\n{text[-1500:]}")

    def compile(self, source, name, compiler="g++", standard="c++17", flags=("-O2",)):
        program = self.room / name
        self.run(compiler, f"-std={standard}", *WARNS, *flags, f"-I{INCLUDE}", f"-I{EXAMPLES}", "-o", program, source, self.library, "-pthread")
        return program

    def check(self, name, tools, what):
        lacking = [tool for tool in tools.split() if not shutil.which(tool)]
        if self.words.only and self.words.only not in name:
            return
        if lacking:
            for tool in lacking:
                self.left_out.setdefault(tool, []).append(name)
            return
        try:
            said = what()
        except (Failed, OSError, subprocess.TimeoutExpired, ValueError, KeyError) as e:
            self.failed.append(name)
            print(f"FAILED {name}: {e}", flush=True)
        else:
            self.passed += 1
            print(f"{name}" + (f": {said}" if said else ""), flush=True)

    # What is built first.

    def build(self):
        (self.room / "lib").mkdir()
        make = ["make", "-s", "-C", EXAMPLES, "install", f"PREFIX={self.installed}"]
        if self.words.library:
            copy = self.room / "examples"
            shutil.copytree(EXAMPLES, copy / "examples/btjobs", ignore=shutil.ignore_patterns("libbtjobs*", "flock", "judged"))
            shutil.copytree(INCLUDE, copy / "include")
            make = ["make", "-s", "-C", copy / "examples/btjobs", f"LIBRARY={Path(self.words.library).resolve()}", "install", f"PREFIX={self.installed}"]
        self.run(*make)
        for file in (self.installed / "lib").glob("libbtjobs*"):
            shutil.copy(file, self.room / "lib")

    # C and C++.

    def headers_alone(self, compiler):
        def tried():
            for standard, headers in ("c++17", sorted((INCLUDE / "btjobs").glob("*.hpp"))), ("c++20", [INCLUDE / name for name in PUBLIC]):
                for header in headers:
                    self.run(compiler, f"-std={standard}", *WARNS, "-fsyntax-only", "-include", header, "-x", "c++", os.devnull)
        return tried

    def by_pkg_config(self):
        flags = self.run("pkg-config", "--cflags", "--libs", "btjobs").split()
        self.run("g++", "-std=c++17", *WARNS, "-o", "installed_flock", EXAMPLES / "flock.cpp", *flags)
        self.wants(self.run(self.room / "installed_flock", "--seeds", "20"), "20 orders agree")
        self.run("cc", "-std=c99", *WARNS, "-o", "installed_c", HERE / "cmake/in_c.c", *flags)
        self.wants(self.run(self.room / "installed_c"), "5 frames, 349 events")

    def by_cmake(self):
        self.run("cmake", "-S", HERE / "cmake", "-B", "cmake", f"-DCMAKE_PREFIX_PATH={self.installed}", f"-DEXAMPLES={EXAMPLES}")
        self.run("cmake", "--build", "cmake")
        self.wants(self.run(self.room / "cmake/flock", "--seeds", "20"), "20 orders agree")
        self.wants(self.run(self.room / "cmake/in_c"), "5 frames, 349 events")

    def tests(self, name, compiler="g++", standard="c++17", flags=("-O2",)):
        def tried():
            text = self.run(self.compile(HERE / "runs.cpp", f"runs_{name}", compiler, standard, flags))
            self.wants(text, "all right")
            if re.search(r"WARNING: ThreadSanitizer|runtime error|ERROR: AddressSanitizer", text):
                raise Failed(text[-3000:])
        return tried

    def under_helgrind(self):
        program = self.compile(HERE / "threads.cpp", "threads", flags=("-O1", "-g"))
        self.wants(self.run(program), "all right")
        valgrind = ["valgrind", "-q", "--tool=helgrind", "--error-exitcode=9"]
        self.wants(self.run(*valgrind, f"--suppressions={HERE / 'helgrind.supp'}", program), "all right")
        # and a lock that isn't taken is seen
        source = self.room / "torn.cpp"
        source.write_text("#include <thread>\nint n;\nint main() { std::thread t([] { n++; }); n++; t.join(); return n == 0; }\n")
        self.run("g++", "-g", "-o", "torn", source, "-pthread")
        self.run(*valgrind, f"--suppressions={HERE / 'helgrind.supp'}", self.room / "torn", status=9)

    def refused_growths(self):
        """Each growth of memory is refused in turn, in each call that takes memory."""
        wraps = ["-Wl,--wrap=malloc", "-Wl,--wrap=realloc"]
        self.run("cc", "-std=c99", *WARNS, "-O1", f"-I{INCLUDE}", "-o", "refused", HERE / "refused.c", *wraps, self.library)
        return self.run(self.room / "refused", 200).strip()

    def random_games(self):
        return self.run(self.compile(HERE / "random_games.cpp", "random_games"), 1000 if self.words.long else 150).strip()

    def table(self, text):
        if self.words.long:
            print(text[text.rindex("\n\n") + 1 if "\n\n" in text else 0:])
        wrong = re.findall(r"^.*WRONG.*$", text, re.M)
        if wrong:
            raise Failed("\n".join(wrong))
        return f"{text.count('right;')} mistakes and none, named rightly"

    def mistakes_cpp(self):
        return self.table(self.run(self.compile(HERE / "mistakes.cpp", "mistakes"), 1000, 300 if self.words.long else 0, 4, 10000 if self.words.long else 1000))

    def judged(self):
        program = self.compile(EXAMPLES / "judged.cpp", "judged")
        self.wants(self.run(program, "none"), "416 events, all legal")
        for mistake, words in {"early_slot": "but its slot is still that of frame 3", "early_turn": "but think 4 19 isn't over", "early_draw": "but the turn of frame 5 isn't over",
                               "shown_twice": "but the next to be shown is frame 4"}.items():
            self.wants(self.run(program, mistake, status=1), words)

    # Rust.

    def copied_crate(self):
        copy = self.room / "crate"
        if not copy.exists():
            shutil.copytree(CRATE, copy, ignore=shutil.ignore_patterns("target", "Cargo.lock"))
        return copy

    def cargo(self, *words, status=0):
        return self.run("cargo", words[0], "--offline", "--quiet", "--manifest-path", self.copied_crate() / "Cargo.toml", *words[1:], status=status)

    def rust_tests(self):
        self.wants(self.cargo("test"), "test result: ok. 8 passed", "test result: ok. 2 passed")

    def wrong_rust(self):
        self.cargo("build", "--release")
        words = ["rustc", "--edition", "2021", "--crate-type", "bin", "--emit", "metadata", "-o", self.room / "wrong.rmeta", "-L", f"dependency={self.room / 'target/release/deps'}",
                 "--extern", f"btjobs={self.room / 'target/release/libbtjobs.rlib'}"]
        right = "fn think(&self, v: &View<Self>, _: &[()]) -> Tick<u8, Never> { Tick::Thought(v.world[0]) }"
        source = self.room / "wrong.rs"
        source.write_text(GAME % ("u8", right))
        self.run(*words, source)
        for name, says, think, field in WRONG_RUST:
            source.write_text(GAME % (field or "u8", think))
            self.wants(self.run(*words, source, status=1), says)
        return f"{len(WRONG_RUST)} ways are refused"

    def mistakes_rust(self):
        return self.table(self.cargo("run", "--release", "--example", "mistakes", "--", "10000" if self.words.long else "1000", "300" if self.words.long else "0", "4"))

    # Python.

    def python_tests(self):
        self.wants(self.run(sys.executable, HERE / "finder_tests.py"), "OK")

    def mistakes_python(self):
        return self.table(self.run(sys.executable, HERE / "mistakes.py", 200, 300 if self.words.long else 0, 4, 10000 if self.words.long else 100))

    # Logs, pages, the manual.

    def logs_between(self):
        """A log that one language's finder wrote is replayed by the others'; so the game has to be the same: none at all."""
        program = self.compile(EXAMPLES / "flock.cpp", "flock")
        self.wants(self.run(program, "--seeds", "100"), "100 orders agree")
        page = (INCLUDE / "btjobs/page.inc").read_text()
        for copy in (CRATE / "src/page.html", TOP / "python/src/btjobs/page.html"):
            if page != 'R"btjobs(' + copy.read_text() + ')btjobs"\n':
                raise Failed(f"{copy} isn't the page of include/btjobs/page.inc")
        script = self.room / "page.js"
        script.write_text(re.search(r"<script>\n(.*)</script>", page, re.S).group(1))
        if shutil.which("node"):
            self.run("node", "--check", script)

    def traced(self):
        """`btview trace` shows a log that the finder wrote, and one of more agents and workers than btworld has: each stretch, frame and question is there."""
        found, wide, trace, said = self.room / "found.log", self.room / "wide.log", self.room / "trace.json", []
        self.run(sys.executable, EXAMPLES / "epidemic.py", "random", "--log", found, "--seeds", "4", status=1)
        self.env["PYTHONPATH"] = str(TOP / "python/src")
        self.run(sys.executable, "-c", WIDE_RUN, wide)
        for log in found, wide:
            trace.write_text(self.run(TOP / "crates/btview/out/btview", "trace", log))
            said.append(self.run(sys.executable, TOP / "scripts/pages/read_trace.py", trace, log).strip())
        return "; ".join(said)

    def log_writer(self):
        program = self.room / "writes_log"
        with self.lock:
            if not program.exists():
                self.run("cc", "-std=c99", *WARNS, f"-I{INCLUDE}", "-o", program, HERE / "writes_log.c", self.library)
        return program

    def manual(self, language):
        """Plays the games of the manual: each block of code that begins with a file's name in a remark is that file, the lines behind a `$` are run in order."""
        def tried():
            folder = self.room / f"manual_{language}"
            folder.mkdir()
            text = (TOP / MANUALS[language]).read_text()
            blocks = re.findall(r"^```(\w*)\n(.*?)^```", text, re.S | re.M)
            files = {"cpp": "town.cpp", "rust": "town.rs", "python": "town.py"}
            code = [body for kind, body in blocks if kind == language]
            if not code:
                raise Failed("the manual has no such game")
            (folder / files[language]).write_text(code[0])
            if language == "cpp":
                program = [self.compile(folder / "town.cpp", "manual_cpp/town")]
            elif language == "python":
                program = [sys.executable, folder / "town.py"]
                self.env["PYTHONPATH"] = str(TOP / "python/src")
            else:
                crate = self.copied_crate()
                shutil.copy(folder / "town.rs", crate / "examples/town.rs")
                self.cargo("build", "--release", "--example", "town")
                program = [self.room / "target/release/examples/town"]
            said = self.run(*program, "--seeds", "300", folder=folder, status=1)
            wanted = next(body for kind, body in blocks if kind == "text" and f"({language})" in body)
            # but for the time that it took, and for the program's name
            for line in wanted.splitlines()[1:]:
                if line.strip() and not re.match(r"\s*(found at seed|again:)", line) and line not in said:
                    raise Failed(f"the manual says\n{line}\nand it writes\n{said}")
            self.run(*program, "--replay", "btjobs-order.log", folder=folder, status=1)
            # A log that a board in C wrote, frame by frame as the plain order, is played too.
            self.run(self.log_writer(), 1 if language == "cpp" else 0, folder / "of_c.log")
            self.run(*program, "--replay", "of_c.log", folder=folder)
            return said.splitlines()[0]
        return tried


def main():
    words = argparse.ArgumentParser(description=__doc__, formatter_class=argparse.RawDescriptionHelpFormatter)
    words.add_argument("--library", help="a libbtjobs.a")
    words.add_argument("--long", action="store_true")
    words.add_argument("--jobs", type=int, default=min(4, len(os.sched_getaffinity(0))), help="checks at once (4)")
    words.add_argument("--only", help="the checks whose name has this word")
    words = words.parse_args()
    with tempfile.TemporaryDirectory(prefix="btjobs-") as room:
        t = Tried(words, Path(room))
        try:
            t.build()
        except Failed as e:
            sys.exit(f"the library can't be built: {e}")
        sanitizers = {"thread sanitizer": ("-O1", "-g", "-fsanitize=thread"), "address and undefined-behaviour sanitizers": ("-O0", "-g", "-fsanitize=address,undefined")}
        checks = [
            ("headers alone, g++", "g++", t.headers_alone("g++")),
            ("headers alone, clang++", "clang++", t.headers_alone("clang++")),
            ("wrong use, g++", "g++", lambda: t.run("sh", HERE / "wrong_use.sh", "g++").strip()),
            ("wrong use, clang++", "clang++", lambda: t.run("sh", HERE / "wrong_use.sh", "clang++").strip()),
            ("installed, pkg-config", "g++ cc pkg-config", t.by_pkg_config),
            ("installed, CMake", "g++ cmake", t.by_cmake),
            ("tests in C++", "g++", t.tests("plain")),
            ("tests in C++20, clang++", "clang++", t.tests("clang", "clang++", "c++20")),
            *((f"tests in C++, {name}", "g++", t.tests(name.split()[0], flags=flags)) for name, flags in sanitizers.items()),
            ("threads under helgrind", "g++ valgrind", t.under_helgrind),
            ("refused growths", "cc", t.refused_growths),
            ("random games", "g++", t.random_games),
            ("mistakes in C++", "g++", t.mistakes_cpp),
            ("a scheduler judged", "g++", t.judged),
            ("logs and pages", "g++", t.logs_between),
            ("tests in Python", "python3", t.python_tests),
            ("mistakes in Python", "python3", t.mistakes_python),
            ("the manual's game in C++", "g++ cc", t.manual("cpp")),
            ("the manual's game in Python", "python3 cc", t.manual("python")),
        ]
        rust = [
            ("tests in Rust", "cargo", t.rust_tests),
            ("wrong use in Rust", "cargo rustc", t.wrong_rust),
            ("mistakes in Rust", "cargo", t.mistakes_rust),
            ("the manual's game in Rust", "cargo cc", t.manual("rust")),
        ]
        if (TOP / "crates/btview/out/btview").exists():
            checks.append(("a log in btview trace", "python3", t.traced))
        elif not words.only:
            t.left_out["crates/btview/out/btview"] = ["a log in btview trace"]
        version = re.search(r"rustc (\d+)\.(\d+)", t.run("rustc", "--version")) if shutil.which("rustc") else None
        if version and tuple(map(int, version.groups())) < RUSTC:
            t.left_out["a newer rustc"] = [name for name, *_ in rust]
            rust = []
        with ThreadPoolExecutor(words.jobs) as pool:
            jobs = [pool.submit(lambda: [t.check(*it) for it in rust])] + [pool.submit(t.check, *it) for it in checks]
            for job in jobs:
                job.result()
        for tool, names in t.left_out.items():
            print(f"left out for want of {tool}: {', '.join(names)}")
        if not t.left_out:
            print("nothing is left out")
        print(f"btjobs: {t.passed} passed, {len(t.failed)} failed" + (f": {', '.join(t.failed)}" if t.failed else ""))
        return 1 if t.failed or not t.passed else 0


if __name__ == "__main__":
    sys.exit(main())
