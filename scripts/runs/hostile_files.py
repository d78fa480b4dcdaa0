#!/usr/bin/env python3
"""Gives the program big and hostile files, and prints for each what it answers, its processor time and its memory.

    scripts/runs/hostile_files.py [PROGRAM]

PROGRAM is crates/btworld/out/btworld where it isn't given; ./prove builds that. An answer other than the right one, or
memory above eight times the file's size and 16 MiB, is `wrong`."""
import os
import subprocess
import sys
import tempfile
from pathlib import Path

TOP = str(Path(__file__).resolve().parents[2])
MIB = 1 << 20
LEVEL = b'{"map":["A0"],"agents":["t"],"trees":{"t":["seq",["wait",1],["at","0"]]}}'
HEAD = b"btworld log 1 frames 1 workers 1 fibers 16 slots 3\n"
MILLIONS = 5_000_000


def pieces(piece, count, first=b"", last=b""):
    """The bytes `first`, then so many pieces, then `last`, a part at a time."""
    yield first
    at_once = max(1, MIB // len(piece))
    while count:
        now = min(count, at_once)
        yield piece * now
        count -= now
    yield last


def rows(count):
    row = b'"' + b"." * 128 + b'"'
    return pieces(row + b",", count - 1, b'{"map":[', row + b'],"agents":[],"trees":{}}')


# What it is, the words ({} is the file), its bytes, and the answer: status, last line on standard error.
BIG = [
    ("64 MiB of zeros as a level", "check {}", lambda: pieces(b"\0", 64 * MIB), (2, "level: json")),
    ("64 MiB of `[` as a level", "check {}", lambda: pieces(b"[", 64 * MIB), (2, "level: json")),
    ("one text of 64 MiB as a level", "check {}", lambda: pieces(b"a", 64 * MIB - 2, b'"', b'"'), (2, "level: shape")),
    ("64 MiB of spaces behind a level", "check {}", lambda: pieces(b" ", 64 * MIB, LEVEL), (0, "")),
    ("a map of 10,000 rows", "check {}", lambda: rows(10_000), (2, "level: map size")),
    ("a script of 5 million lines", "play level --frames 3 --workers 1 --script {}", lambda: pieces(b"1 on a\n", MILLIONS), (0, "")),
    (
        "a script wrong in its last of 5 million lines",
        "play level --frames 3 --workers 1 --script {}",
        lambda: pieces(b"1 on a\n", MILLIONS - 1, b"", b"0 on a\n"),
        (2, f"script: line {MILLIONS}"),
    ),
    ("64 MiB of zeros as a script", "play level --frames 3 --workers 1 --script {}", lambda: pieces(b"\0", 64 * MIB), (2, "script: line 1")),
    (
        "a log wrong in its last of 5 million lines",
        "replay level {}",
        lambda: pieces(b"0 start logic 1\n", MILLIONS - 1, HEAD, b"0 start logic 0\n"),
        (2, f"log: line {MILLIONS + 1}"),
    ),
    (
        "a log of 5 million lines, illegal from its second event on",
        "replay level {}",
        lambda: pieces(b"0 start logic 1\n", MILLIONS, HEAD),
        (2, "log: illegal event 1"),
    ),
    ("64 MiB of zeros as a log", "replay level {}", lambda: pieces(b"\0", 64 * MIB), (2, "log: head")),
]

# What it is, the words, how its streams are, and the answer.
SMALL = [
    ("a folder as a level", "check folder", {}, (1, "file: folder")),
    ("a folder as a script", "play level --frames 3 --workers 1 --script folder", {}, (1, "file: folder")),
    ("a missing file", "check missing", {}, (1, "file: missing")),
    ("a file with no right to read", "check secret", {}, (1, "file: secret")),
    ("one file as level and script", "play level --frames 3 --workers 1 --script level", {}, (2, "script: line 1")),
    ("one file as level and log", "replay level level", {}, (2, "log: head")),
    ("the level as the log to write", "play copy --frames 3 --workers 1 --log copy", {}, (2, "words: copy would overwrite copy")),
    ("a log into a folder", "play level --frames 3 --workers 1 --log folder", {}, (1, "file: folder")),
    ("standard output full", "play level --frames 3 --workers 1", {"stdout": "/dev/full"}, (1, "run: write")),
    ("standard output closed", "play level --frames 3 --workers 1", {"stdout": None}, (1, "run: write")),
    ("a log on a full disk", "play level --frames 3 --workers 1 --log /dev/full", {}, (1, "file: /dev/full")),
    ("standard error closed", "check missing", {"stderr": None}, (1, "")),
    ("standard error full", "check missing", {"stderr": "/dev/full"}, (1, "")),
    ("standard input closed", "", {"stdin": None}, (1, "file: standard input")),
]


def run(program, folder, words, streams):
    """Returns status, the last line of standard error, processor seconds and the most memory in MiB."""
    streams_of = {0: streams.get("stdin", "/dev/null"), 1: streams.get("stdout", "/dev/null"), 2: streams.get("stderr", "err")}
    child = os.fork()
    if child == 0:
        os.chdir(folder)
        for number, path in streams_of.items():
            if path is None:
                os.close(number)
            else:
                how = os.O_RDONLY if number == 0 else os.O_WRONLY | os.O_CREAT | (os.O_TRUNC if path == "err" else 0)
                os.dup2(os.open(path, how, 0o600), number)
        if os.getuid() == 0:
            os.setgroups([])
            os.setgid(65534)
            os.setuid(65534)
        os.execv(program, [program, *words.split()])
    _, status, used = os.wait4(child, 0)
    with open(f"{folder}/err", encoding="utf-8", errors="replace") as it:
        said = it.read().rstrip("\n").split("\n")[-1]
    return os.waitstatus_to_exitcode(status), said, used.ru_utime + used.ru_stime, used.ru_maxrss / 1024


def main():
    given = os.path.realpath(sys.argv[1] if len(sys.argv) > 1 else f"{TOP}/crates/btworld/out/btworld")
    if not os.path.exists(given):
        sys.exit(f"{given} isn't there: ./prove builds it")
    wrong = 0
    with tempfile.TemporaryDirectory() as folder:
        os.chmod(folder, 0o777)
        program = f"{folder}/btworld"
        subprocess.run(["cp", given, program], check=True)
        os.chmod(program, 0o755)
        os.mkdir(f"{folder}/folder")
        for name in ("level", "secret", "copy", "err"):
            with open(f"{folder}/{name}", "wb") as it:
                it.write(LEVEL)
            os.chmod(f"{folder}/{name}", 0o000 if name == "secret" else 0o666)
        print("| Given | MiB | Answer | Processor seconds | Memory in MiB |")
        print("|---|---|---|---|---|")
        for what, words, parts, right in BIG:
            with open(f"{folder}/big", "wb") as it:
                it.writelines(parts())
            os.chmod(f"{folder}/big", 0o666)
            size = os.path.getsize(f"{folder}/big") / MIB
            status, said, seconds, memory = run(program, folder, words.format("big"), {})
            bad = (status, said) != right or memory > 8 * size + 16
            wrong += bad
            answer = f"{status}{', `' + said + '`' if said else ''}{' (wrong)' if bad else ''}"
            print(f"| {what} | {size:.0f} | {answer} | {seconds:.2f} | {memory:.0f} |", flush=True)
            os.remove(f"{folder}/big")
        for what, words, streams, right in SMALL:
            os.truncate(f"{folder}/err", 0)
            status, said, seconds, memory = run(program, folder, words, streams)
            bad = (status, said) != right
            wrong += bad
            answer = f"{status}{', `' + said + '`' if said else ''}{' (wrong)' if bad else ''}"
            print(f"| {what} | | {answer} | {seconds:.2f} | {memory:.0f} |", flush=True)
    print(f"{wrong} wrong")
    return wrong != 0


if __name__ == "__main__":
    sys.exit(main())
