#!/usr/bin/env python3
"""Names each file that a command reads as a file that it writes, and looks that it is refused and none is changed.

    scripts/runs/try_paths.py [PROGRAM]

Of each command every pair is tried of a file that is read (level, script, log, live part) and one that is written (log, journal, whole log, standard
output), the one named as the other is: by the same name, by another spelling, by a symbolic link, by a hard link, and as /dev/stdout that
goes there. The first three the program refuses itself; all of them scripts/programs/same_file.sh, which the launcher asks first. A refusal is
status 2, nothing on standard output, and one line on standard error that names both. Then each command is run with a file of its own to
write, which has to be made whole, and with one that it may not write to, or that is no plain file, which has to be as it was. The status
is 1 where something is otherwise, or where a file was changed. PROGRAM is crates/btworld/out/btworld where it isn't given."""
import os
import subprocess
import sys
import tempfile
from pathlib import Path

TOP = Path(__file__).resolve().parents[2]
LEVEL = '{"map":["A.0"],"agents":["t"],"trees":{"t":["move","0"]}}'
SCRIPT = "1 on a\n"
# The words of each command, what is read and what is written among them.
COMMANDS = [
    ("play LEVEL --frames 2 --workers 1 --script SCRIPT --log OUT", ("LEVEL", "SCRIPT")),
    ("record LEVEL OUT --frames 2 --workers 1 --script SCRIPT", ("LEVEL", "SCRIPT")),
    ("complete LEVEL LOG OUT --script SCRIPT", ("LEVEL", "LOG", "SCRIPT")),
]
# Commands that write to standard output alone.
TOLD = [
    ("check LEVEL", ("LEVEL",)),
    ("replay LEVEL LOG --script SCRIPT", ("LEVEL", "LOG", "SCRIPT")),
    ("explain LEVEL --script SCRIPT --log LOG", ("LEVEL", "LOG", "SCRIPT")),
    ("digest LEVEL --frames 2 --script SCRIPT", ("LEVEL", "SCRIPT")),
    ("state LEVEL --frame 2 --script SCRIPT", ("LEVEL", "SCRIPT")),
    ("why LEVEL --frame 2 --agent A --script SCRIPT", ("LEVEL", "SCRIPT")),
    # btview's: the launcher refuses it before it starts a program
    ("page LEVEL LOG --script SCRIPT --live LIVE", ("LEVEL", "LOG", "SCRIPT", "LIVE")),
]
NAMES = {"LEVEL": "level.json", "SCRIPT": "a.script", "LOG": "half.log", "LIVE": "live.html"}
# How an output names a file, and whether the program refuses it by itself.
NAMED = [
    ("the same name", lambda file: file, True),
    ("./", lambda file: f"./{file}", True),
    ("a detour", lambda file: f"folder/..//{file}", True),
    ("a symbolic link", lambda file: f"link_to_{file}", True),
    ("a hard link", lambda file: f"other_{file}", False),
]


class Room:
    def __init__(self, program):
        self.program, self.wrong, self.tried = program, 0, 0
        self.room = Path(tempfile.mkdtemp())
        (self.room / "folder").mkdir()
        self.write("level.json", LEVEL.encode())
        self.write("a.script", SCRIPT.encode())
        self.write("half.log", b"")
        self.write("live.html", b"<p>\n")
        words = "play level.json --frames 2 --workers 1 --script a.script --log half.log"
        subprocess.run([program, *words.split()], cwd=self.room, check=True, stdout=subprocess.DEVNULL)
        self.write("half.log", b"".join((self.room / "half.log").read_bytes().splitlines(True)[:4]))
        for file in NAMES.values():
            (self.room / f"link_to_{file}").symlink_to(file)
            os.link(self.room / file, self.room / f"other_{file}")
        self.was = self.held()

    def write(self, name, data):
        (self.room / name).write_bytes(data)

    def held(self):
        """What each file that is read holds, and which it is."""
        return {file: (os.stat(self.room / file).st_ino, (self.room / file).read_bytes()) for file in NAMES.values()}

    def run(self, words, by_launcher, to=None):
        out = open(self.room / to, "ab") if to else subprocess.PIPE
        for program in ([[TOP / "scripts/programs/same_file.sh", "btworld"]] if by_launcher else []) + [[self.program]]:
            ran = subprocess.run([*program, *words], cwd=self.room, stdout=out, stderr=subprocess.PIPE, stdin=subprocess.DEVNULL, timeout=60)
            if ran.returncode:
                break
        if to:
            out.close()
        return ran.returncode, ran.stdout or b"", ran.stderr.decode()

    def note(self, what, is_right, shown):
        self.tried += 1
        if not is_right:
            self.wrong += 1
            print(f"{what}: {shown}")
        if self.held() != self.was:
            self.wrong += 1
            print(f"{what}: a file that is read was changed")
            for file, (_, data) in self.was.items():
                self.write(file, data)
            self.was = self.held()

    def refuses(self, form, out, output, file, by_launcher, to=None):
        words = [NAMES.get(it, out if it == "OUT" else it) for it in form.split()]
        shown = self.run(words, by_launcher, to)
        line = f"words: {output} would overwrite {file}\n"
        self.note(f"{' '.join(words)}, {'scripts/programs/same_file.sh' if by_launcher else 'the program'}", shown == (2, b"", line), shown)


def main():
    program = Path(sys.argv[1] if len(sys.argv) > 1 else TOP / "crates/btworld/out/btworld").resolve()
    if not program.exists():
        sys.exit(f"{program} isn't there: `rt ci` and ./prove build it")
    room = Room(program)
    for form, inputs in COMMANDS:
        for read in inputs:
            file = NAMES[read]
            for _, name, by_itself in NAMED:
                room.refuses(form, name(file), name(file), file, True)
                if by_itself:
                    room.refuses(form, name(file), name(file), file, False)
            room.refuses(form, "/dev/stdout", "/dev/stdout", file, True, to=file)
            room.refuses(form, "/dev/stdout", "/dev/stdout", file, False, to=file)
            room.refuses(form, "new.log", "standard output", file, True, to=file)
        words = [NAMES.get(it, it) for it in form.split()]
        place = words.index("OUT")
        for out in ("made", "folder/made", "/dev/null", "old.log", "link_to_old", "link_to_none"):
            # (in place of an older one, and by a link to one and to none)
            for made in ("made", "folder/made", "old.log", "none"):
                (room.room / made).unlink(missing_ok=True)
            room.write("old.log", b"older, and far longer than any log of so few frames: " * 99)
            for link, to in (("link_to_old", "old.log"), ("link_to_none", "none")):
                (room.room / link).unlink(missing_ok=True)
                (room.room / link).symlink_to(to)
            shown = room.run(words[:place] + [out] + words[place + 1 :], True)
            path = room.room / out
            is_whole = out == "/dev/null" or path.read_bytes().count(b"\n") > 4 and b"older" not in path.read_bytes()
            is_link = not out.startswith("link") or path.is_symlink()
            left = [it.name for it in room.room.rglob("*.part*")]
            room.note(f"{form} to {out}", shown[0] == 0 and is_whole and is_link and not left, (shown, left))
        shown = room.run(words[:place] + ["folder"] + words[place + 1 :], True)
        room.note(f"{form} to a folder", (shown[0], shown[2]) == (1, "file: folder\n"), shown)
    for form, inputs in TOLD:
        for read in inputs:
            room.refuses(form, "", "standard output", NAMES[read], True, to=NAMES[read])
    print(f"{room.tried} tried, {room.wrong} wrong")
    return room.wrong != 0


if __name__ == "__main__":
    sys.exit(main())
