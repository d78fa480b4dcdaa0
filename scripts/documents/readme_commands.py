#!/usr/bin/env python3
"""Plays the commands of a document as they stand there, and compares what they write with what it shows.

    scripts/documents/readme_commands.py [FILE]

FILE is README.md where it isn't given. Played are the indented lines `$ COMMAND`, against the lines up to the next one, and
the indented lines that begin with the program, against the frames that are shown, side by side, before the next of them.
They run in a folder of their own in which all of the repository lies. What the launcher says of itself is no output; what
it doesn't start, and what stands behind that in a block, is not played. The status is 1 where an output differs, where
something is not played, or nothing is. A document whose commands write something else than it shows, and one of no
commands, are tried first: both have to be refused."""
import difflib
import os
import re
import subprocess
import sys
import tempfile
from pathlib import Path

TOP = Path(__file__).resolve().parents[2]
PROGRAM = re.compile(r"\./(btworld|btview)\b")
OF_LAUNCHER = re.compile(r"^(btworld|btview): .*\n", re.M)
COLUMNS = re.compile(r"frame \d+( +frame \d+)*")
# No proof is begun here.
NEVER = ("./prove", "rt ")
MADE_TO_DIFFER = """
    $ echo one
    one
    $ echo two
    three
"""


def blocks_of(text):
    """Returns the indented blocks, each as its lines; what stands between fences is none."""
    text = re.sub(r"^```.*?^```$", "", text, flags=re.M | re.S)
    return [[line[4:] for line in it.splitlines()] for it in re.findall(r"(?:^    .*\n)+", text, re.M)]


def run(command, room):
    """Returns what a command writes, without the launcher's lines, and what the launcher said where it didn't start the program."""
    ran = subprocess.run(["bash", "-c", command], cwd=room, stdin=subprocess.DEVNULL, stdout=subprocess.PIPE, stderr=subprocess.STDOUT)
    said = ran.stdout.decode(errors="replace")
    kept = OF_LAUNCHER.sub("", said)
    return kept, said.strip() if ran.returncode == 3 and not kept else None


def frames_of(text):
    return {it.split("\n", 1)[0]: it for it in re.split(r"(?m)^(?=frame \d+$)", text)}


def columns_of(lines):
    """Returns the frames that stand side by side."""
    starts = [it.start() for it in re.finditer("frame", lines[0])] + [None]
    for start, end in zip(starts, starts[1:]):
        yield "".join(line[start:end].rstrip() + "\n" for line in lines)


class Count:
    def __init__(self):
        self.same = self.differ = self.not_played = 0

    def compare(self, what, wanted, found):
        if wanted == found:
            self.same += 1
            print(f"ok: {what}", flush=True)
            return
        self.differ += 1
        print(f"differs: {what}", *difflib.unified_diff(wanted.splitlines(), found.splitlines(), "shown", "written", lineterm=""), sep="\n", flush=True)

    def is_well(self):
        return self.same > 0 and not self.differ and not self.not_played

    def leave(self, what, why):
        self.not_played += 1
        print(f"not played: {what}: {why}", flush=True)


def play_lines(lines, room, count):
    """Plays a block of `$ COMMAND` and outputs."""
    stopped = None
    for part in re.split(r"(?m)^\$ ", "\n".join(lines) + "\n")[1:]:
        command, wanted = part.split("\n", 1)
        if command.startswith(NEVER):
            continue
        found, why = run(command, room) if not stopped else ("", stopped)
        if why:
            count.leave(command, why)
            stopped = "it comes behind one that was not played"
        else:
            count.compare(command, wanted, found)


def play(text):
    """Plays the commands of a document in a folder of their own."""
    count, command, frames, why = Count(), None, None, None
    with tempfile.TemporaryDirectory() as room:
        for it in TOP.iterdir():
            os.symlink(it, Path(room) / it.name)
        for lines in blocks_of(text):
            if lines[0].startswith("$ "):
                play_lines(lines, room, count)
            elif PROGRAM.match(lines[0]) and len(lines) == 1:
                command, frames = lines[0], None
            elif command and COLUMNS.fullmatch(lines[0]):
                if frames is None:
                    found, why = run(command, room)
                    frames = frames_of(found)
                    if why:
                        count.leave(command, why)
                for wanted in columns_of(lines) if not why else ():
                    head = wanted.split("\n", 1)[0]
                    # A frame may be shown in its first lines alone.
                    found = frames.get(head, "").splitlines(keepends=True)[: wanted.count("\n")]
                    count.compare(f"{head} of {command}", wanted, "".join(found))
    return count


def main():
    text = Path(sys.argv[1] if len(sys.argv) > 1 else TOP / "README.md").read_text()
    print("made to differ:")
    if play(MADE_TO_DIFFER).is_well() or play("Nothing to play.\n").is_well():
        print("a document that shows something else, or nothing, is not refused")
        return 1
    print("the document:")
    count = play(text)
    print(f"{count.same} as shown, {count.differ} differ, {count.not_played} not played")
    return not count.is_well()


if __name__ == "__main__":
    sys.exit(main())
