#!/usr/bin/env python3
"""Refuses the program each growth of memory, each opening, read and write of a file in turn, and shortens each read and
write, for every form of its words, and says which runs do something that they may not. Then it refuses each growth of the
tests that call a board again after a refusal, or look at what a run tells of one: each has to pass.

    scripts/runs/refused_growths.py [PROGRAM]

PROGRAM is crates/btworld/out/btworld where it isn't given; `rt ci` and ./prove build it, and `rt ci` the tests, without which
this is wrong. Needed are Linux with glibc, and cc. A run has to end as without a refusal, which is as the plain player says, or

- of a refused growth: with status 3 and `want of memory`, or `run: spawn` where a thread could not be started for it (with one
  worker for at most one growth; with more, which growth is the Nth differs from run to run). Only to read a level asks for room
  ahead, without which it gets on, so no more growths may be as without a refusal than `check` of that level has,
- of a refused opening, read or write: with status 1 and the line of that file or write,

and then to have written a first part of the right text. A shortened read or write has to change nothing. In each form there have
to be growths, reads and writes to refuse. A program that goes on with a wrong frame after a refused growth, and one that takes
no memory, are tried first: both have to come out wrong."""
import os
import subprocess
import sys
import tempfile
from pathlib import Path

sys.dont_write_bytecode = True
TOP = str(Path(__file__).resolve().parents[2])
WAITS = '{"map":["A0"],"agents":["t"],"trees":{"t":["seq",["wait",1],["at","0"]]}}'
WALK = '{"map":["A.0"],"agents":["t"],"trees":{"t":["move","0"]}}'
LETTERS = "ABCDEFGHIJKLMNOPQRSTUVWXYZ"
CROWD = '{"map":["%s0"],"agents":[%s],"trees":{"t":["move","0"]}}' % (LETTERS, ",".join(['"t"'] * 26))

SCRIPT = "1 on a\n2 off a\n"
# (any text but none)
SOME = object()

import plain_player as plain


def told(text, level, *rest, script=""):
    """A text of the plain player about a level."""
    return text(plain.Level(level.encode()), plain.read_script(script.encode()), *rest).encode()


def frames(level, count, script=""):
    return told(plain.frames_text, level, count, script=script)


# What a form is called, its words, what standard input has, and its status and standard output without a refusal. The file `made`
# is what a form with that word writes.
FORMS = [
    ("no words", [], WAITS, 0, frames(WAITS, 3)),
    ("play", ["play", "waits", "--frames", "3", "--workers", "1"], "", 0, frames(WAITS, 3)),
    ("play a walk", ["play", "walk", "--frames", "3", "--workers", "1"], "", 0, frames(WALK, 3)),
    ("play with script and log", "play waits --frames 3 --workers 1 --script script --log made".split(), "", 0, frames(WAITS, 3, SCRIPT)),
    ("play on two threads", "play crowd --frames 2 --workers 2".split(), "", 0, frames(CROWD, 2)),
    ("play on sixteen threads", "play crowd --frames 2 --workers 16".split(), "", 0, frames(CROWD, 2)),
    ("replay", ["replay", "waits", "log"], "", 0, frames(WAITS, 3)),
    ("replay with a script", ["replay", "waits", "log", "--script", "script"], "", 0, frames(WAITS, 3, SCRIPT)),
    ("replay half a log", ["replay", "waits", "half"], "", 2, frames(WAITS, 1)),
    ("check", ["check", "waits"], "", 0, b"ok 2 1 1 1\n"),
    ("help", ["--help"], "", 0, SOME),
    ("help of play", ["play", "--help"], "", 0, SOME),
    ("refused words", ["play", "waits"], "", 2, b""),
    ("a number out of range", ["play", "waits", "--frames", "-1", "--workers", "1"], "", 2, b""),
    ("a refused level", ["check", "script"], "", 2, b""),
    ("digest", "digest walk --frames 3 --script script".split(), "", 0, told(plain.digests_text, WALK, 3, script=SCRIPT)),
    ("state", "state walk --frame 2 --script script".split(), "", 0, told(plain.state_text, WALK, 2, script=SCRIPT)),
    ("why", "why walk --frame 2 --agent A --script script".split(), "", 0, told(plain.why_text, WALK, 2, "A", script=SCRIPT)),
    ("explain", "explain waits --script script --log log".split(), "", 0, b"ok\n"),
    ("explain a level", "explain script".split(), "", 2, b"level: json\nscript:1:3\ninvalid JSON\n"),
    ("explain a log that breaks off", "explain waits --log half".split(), "", 2, SOME),
    ("complete", "complete waits half made".split(), "", 0, frames(WAITS, 3)),
    ("complete a journal", "complete waits journal made --script script".split(), "", 0, frames(WAITS, 3, SCRIPT)),
    ("record", "record waits made --frames 3 --workers 1 --script script".split(), "", 0, frames(WAITS, 3, SCRIPT)),
]

# A program that takes no heed of a refused growth, and one that takes no memory and calls nothing.
CARELESS = """#include <stdlib.h>
#include <unistd.h>
int main(void) {
    char *volatile it = malloc(9);
    return write(1, it ? "frame 1\\n" : "frame 2\\n", 8) != 8;
}
"""
IDLE = "int main(void) { return 0; }\n"

# What tests show, and their full names.
REPEATED = [
    ("each call of a board, called again", "board_tests", "tests::refusals::refused_calls_are_repeated"),
    ("the same with work in an arena", "board_tests", "tests::refusals::work_in_an_arena_comes_to_the_same"),
    ("how many frames a fault of a run tells", "play_tests", "tests::crowd_tests::a_fault_tells_how_many_frames_are_written"),
]


class Shown:
    def __init__(self, run, folder):
        self.status, self.out, self.err = run.returncode, run.stdout, run.stderr
        # (whether there was such a call)
        self.met = os.path.exists(os.path.join(folder, "report"))
        made = os.path.join(folder, "made")
        self.made = read(made) if os.path.exists(made) else None

    def is_same(self, other):
        return (self.status, self.out, self.err) == (other.status, other.out, other.err)


def read(path):
    with open(path, "rb") as it:
        return it.read()


def play(program, folder, words, given, refuse="", nth=0):
    made, report = os.path.join(folder, "made"), os.path.join(folder, "report")
    for path in (made, report):
        if os.path.exists(path):
            os.remove(path)
    env = {"LD_PRELOAD": os.path.join(folder, "refuse_nth.so"), "REFUSE": refuse, "NTH": str(nth), "REPORT": report}
    run = subprocess.run([program, *words], input=given.encode(), capture_output=True, env=env, cwd=folder, timeout=60)
    return Shown(run, folder)


def is_first_part(shown, whole):
    return whole.out.startswith(shown.out)


def shows(program, folder, made, whole, words):
    """Whether the log or journal that a run made shows its frames. Threads run in another order each time, so logs differ."""
    with open(os.path.join(folder, "shown"), "wb") as it:
        it.write(made)
    script = words[words.index("--script") :][:2] if "--script" in words else []
    form = ["complete", words[1], "shown", "whole"] if made.startswith(b"btworld journal") else ["replay", words[1], "shown"]
    return play(program, folder, form + script, "").out == whole.out


def is_kept(program, folder, made, whole, words):
    """Whether what a refused run made may stand: a journal with both heads is completed, without the `stop` of a run that failed."""
    if words[:1] != ["record"] or made is None or made.count(b"\n") < 2:
        return True
    return shows(program, folder, made.removesuffix(b"stop\n"), whole, words)


def may_be(shown, whole, refuse, words):
    """Whether a run that a refusal has changed has done what it may. `whole` is the run without one."""
    if refuse == "memory":
        said = shown.err in (b"want of memory\n", b"run: spawn\n")
        return shown.status == 3 and said and is_first_part(shown, whole)
    if refuse == "calls":
        files = [b"file: %s\n" % it.encode() for it in words[1:] if not it.startswith("-")]
        known = [b"run: write\n", b"file: standard input\n", *files]
        if shown.status == 1 and shown.err in known and is_first_part(shown, whole):
            return True
        # (the line on standard error was what could not be written)
        return shown.status == whole.status != 0 and whole.err.startswith(shown.err) and shown.out == whole.out
    return False


def workers_of(words):
    return int(words[words.index("--workers") + 1]) if "--workers" in words else 1


def built(folder, name, text):
    with open(os.path.join(folder, f"{name}.c"), "w", encoding="utf-8") as it:
        it.write(text)
    subprocess.run(["cc", "-O1", "-o", os.path.join(folder, name), os.path.join(folder, f"{name}.c")], check=True)
    return os.path.join(folder, name)


def asked_ahead(program, folder, level):
    """How many growths of reading a level may be refused and change nothing."""
    whole, count, nth = play(program, folder, ["check", level], ""), 0, 0
    while True:
        nth += 1
        shown = play(program, folder, ["check", level], "", "memory", nth)
        if not shown.met:
            return count
        count += shown.is_same(whole)


def try_form(program, folder, ahead, name, words, given, status, out):
    """Prints a row for what is refused, and returns how much is wrong. `ahead` has `asked_ahead` of each level."""
    whole = play(program, folder, words, given)
    # (explain tells of a fault on standard output)
    is_silent = status == 0 or words[:1] == ["explain"]
    is_right = whole.status == status and (whole.out if out is SOME else whole.out == out) and (whole.err == b"") == is_silent
    if not is_right:
        print(f"{name}: without a refusal status {whole.status}, {whole.out[-200:]!r}, {whole.err!r}")
    wrong = not is_right
    for refuse in ("memory", "calls", "short"):
        same = other = bad = nth = spawns = 0
        while True:
            nth += 1
            shown = play(program, folder, words, given, refuse, nth)
            if not shown.met:
                break
            made = shown.made
            if shown.is_same(whole) and (whole.made is None or made and shows(program, folder, made, whole, words)):
                same += 1
            elif (
                may_be(shown, whole, refuse, words)
                and (not shown.err.endswith(b"spawn\n") or spawns == 0 or workers_of(words) > 1)
                and is_kept(program, folder, made, whole, words)
            ):
                other += 1
                spawns += shown.err.endswith(b"spawn\n")
            else:
                bad += 1
                print(f"{name}, {refuse} {nth}: status {shown.status}, {shown.out[-200:]!r}, {shown.err!r}")
        if nth == 1:
            bad += 1
            print(f"{name}, {refuse}: there was nothing to refuse")
        most = ahead.get(words[1] if words[1:] else "waits", 0)
        if refuse == "memory" and same > most:
            bad += 1
            print(f"{name}, memory: {same} growths change nothing, and to read the level asks for room ahead {most} times")
        wrong += bad
        print(f"| {name} | {refuse} | {nth - 1} | {same} | {other} | {bad} |", flush=True)
    return wrong


def try_tests(folder):
    """Refuses the tests each growth, and returns how much is wrong."""
    wrong = 0
    for name, crate, test in REPEATED:
        tests = f"{TOP}/crates/{crate}/out/{crate}_tests"
        if not os.path.exists(tests):
            print(f"{tests} isn't there: `rt ci` builds it")
            wrong += 1
            continue
        passed = bad = nth = 0
        while True:
            nth += 1
            shown = play(tests, folder, [test], "", "memory", nth)
            if not shown.met:
                # (the last run, in which nothing was refused, has to pass too)
                bad += shown.status != 0 or nth == 1
                break
            passed, bad = passed + (shown.status == 0), bad + (shown.status != 0)
            if shown.status:
                print(f"{name}, memory {nth}: status {shown.status}, {shown.err!r}")
        wrong += bad
        print(f"| {name} | memory | {nth - 1} | {passed} | 0 | {bad} |", flush=True)
    return wrong


def main():
    program = os.path.realpath(sys.argv[1] if len(sys.argv) > 1 else f"{TOP}/crates/btworld/out/btworld")
    if not os.path.exists(program):
        sys.exit(f"{program} isn't there: `rt ci` and ./prove build it")
    with tempfile.TemporaryDirectory() as folder:
        shim = os.path.join(folder, "refuse_nth.so")
        subprocess.run(["cc", "-O1", "-shared", "-fPIC", "-o", shim, f"{TOP}/scripts/runs/refuse_nth.c"], check=True)
        for name, text in (("waits", WAITS), ("walk", WALK), ("crowd", CROWD), ("script", SCRIPT)):
            with open(os.path.join(folder, name), "w", encoding="utf-8") as it:
                it.write(text)
        words = "play waits --frames 3 --workers 1 --log log".split()
        subprocess.run([program, *words], cwd=folder, check=True, stdout=subprocess.DEVNULL)
        lines = read(os.path.join(folder, "log")).splitlines(True)
        half = next(at for at, it in enumerate(lines) if it == b"emit 1\n") + 1
        with open(os.path.join(folder, "half"), "wb") as it:
            it.writelines(lines[:half])
        words = "record waits made --frames 3 --workers 1 --script script".split()
        subprocess.run([program, *words], cwd=folder, check=True, stdout=subprocess.DEVNULL)
        lines = read(os.path.join(folder, "made")).splitlines(True)
        with open(os.path.join(folder, "journal"), "wb") as it:
            it.writelines(lines[: lines.index(b"emit 1\n") + 1])
        print("| Words | Refused | Runs | As without | Want of memory or a fault | Wrong |")
        print("|---|---|---|---|---|---|")
        for name, text, out in (("made to be wrong: careless", CARELESS, b"frame 1\n"), ("made to be wrong: idle", IDLE, b"")):
            if not try_form(built(folder, name.split()[-1], text), folder, {}, name, [], "", 0, out):
                sys.exit(f"{name}: nothing is wrong with it")
        ahead = {level: asked_ahead(program, folder, level) for level in ("waits", "walk", "crowd")}
        wrong = sum(try_form(program, folder, ahead, *form) for form in FORMS) + try_tests(folder)
    print(f"{wrong} wrong")
    return wrong != 0


if __name__ == "__main__":
    sys.exit(main())
