#!/usr/bin/env python3
"""Builds the programs of calls/, each of which looks at a call of the library that came with 2.1.0, and runs them.

try_library.py takes it in: each program plays each level, with and without its script, plainly and under valgrind, and those that start
threads under helgrind; those of C++ are built by the first and the last standard. A program that looks at a call that btworld.h doesn't
declare is left out. What a program writes has to be what Told has of its call: the word of the plain player
(scripts/runs/plain_player.py), or that of the program btworld."""
import json
import re
import subprocess
from pathlib import Path

HERE = Path(__file__).resolve().parent
HEADER = HERE.parents[1] / "include/btworld.h"
DEEDS = ("stay", "move", "take", "drop", "give")
WRAPS = ["-Wl,--wrap=malloc", "-Wl,--wrap=realloc", "-pthread"]
FRAMES = 40


class Told:
    """What each call has to tell of a level and a script, before each frame up to one."""

    def __init__(self, plain, program):
        self.plain, self.program = plain, program

    def each(self, game):
        """Yields the plain player's game after each frame, one more than is stepped: before each of them the program looks ahead."""
        read = self.plain.read_script(game.script_bytes)
        yield from self.plain.played(self.plain.Level(game.level_bytes), read, game.frames + 1)

    def why(self, game):
        return "".join(it.why(letter) for it in self.each(game) for letter in it.level.letters)

    def node_names(self, game):
        level = json.loads(game.level_bytes)

        def lines(node, depth=0):
            yield "  " * depth + " ".join(str(it) for it in node if not isinstance(it, list))
            for child in node:
                if isinstance(child, list):
                    yield from lines(child, depth + 1)

        once = "".join(f"{line}\n" for name in level["agents"] for line in lines(level["trees"][name]))
        return once * (game.frames + 1)

    def way(self, game):
        told = ""
        for it in self.each(game):
            for letter, here in zip(it.level.letters, it.was_at):
                for place, cell in sorted(it.level.places.items()):
                    way = it.way(here, cell)
                    said = "4 0" if way is None else "5 0" if way == "F" else f"{self.plain.SIDES.index(way[0])} {way[1]}"
                    told += f"{letter} {place} {said}\n"
        return told

    def intent(self, game):
        told = ""
        for it in self.each(game):
            for letter, (node, deed, *to), granted, (x, y) in zip(it.level.letters, it.wants, it.granted, it.was_at):
                direction, agent = 4, 255
                if deed == "move":
                    direction, x, y = self.plain.SIDES.index(to[0]), x + to[0][0], y + to[0][1]
                if deed == "give":
                    agent, (x, y) = to[0], it.was_at[to[0]]
                node = 0xFFFFFFFF if node is None else node
                told += f"{letter} {DEEDS.index(deed)} {node} {x},{y} {direction} {agent} {int(granted)}\n"
        return told

    def explain(self, game):
        """The level with each line left out in turn, and the script with each line feed, as the program explains them: a line feed where there
        is no fault."""
        told, changed = "", game.folder / "changed"
        for path in (game.level, game.script):
            lines = path.read_bytes().splitlines(True)
            for at, line in enumerate(lines):
                kept = b"" if path == game.level else line[:-1]
                changed.write_bytes(b"".join([*lines[:at], kept, *lines[at + 1 :]]))
                level, script = (changed if it == path else it for it in (game.level, game.script))
                made = subprocess.run([self.program, "explain", level, "--script", script], stdin=subprocess.DEVNULL, capture_output=True)
                # Behind the fault's line stand the file and the place, and behind these the reason.
                told += made.stdout.decode().partition(f"\n{changed}:")[2] or "\n"
        return told


def declared(name):
    return re.search(rf"\bbtworld_{name}\(", HEADER.read_text()) is not None


class LookedAt:
    """A game in files, with its bytes."""

    def __init__(self, game):
        self.level, self.words = game.level, game.words
        self.folder, self.frames = game.level.parent, min(game.frames, FRAMES)
        self.level_bytes = game.level.read_bytes()
        self.script = self.folder / "script_or_none"
        self.script_bytes = b"" if game.script == "-" else game.script.read_bytes()
        self.script.write_bytes(self.script_bytes)


def look_at_wrappers(callers, game, look, call, standards):
    """The programs of C++ do by the class what those of C do by the header. Returns how many were built."""
    count = 0
    for source in sorted((HERE / "calls").glob("*.cpp")):
        for standard in standards if declared(source.stem) else ():
            caller, count = callers.cpp(f"call_{source.stem}_cpp", source, [*callers.shared, "-pthread"], standard), count + 1
            made = call(caller, *game.words)
            look(made.returncode == 0, f"{source.name}, {standard}: status {made.returncode}, {made.stderr!r}")
    return count


def look_at_calls(callers, games, program, plain, look, call, checked, races):
    """Returns how many programs there are, and what is left out."""
    told, left_out, count = Told(plain, program), [], 0
    for source in sorted((HERE / "calls").glob("*.c")):
        name = source.stem
        if not declared(name) or (name == "explain" and not program):
            left_out.append(name)
            continue
        caller, count = callers.c(f"call_{name}", source, [*callers.archive, *WRAPS]), count + 1
        threads = [races] if "pthread_create" in source.read_text() else []
        for game in map(LookedAt, games):
            wanted = getattr(told, name)(game).encode() if hasattr(told, name) else b""
            made = call(caller, *game.words, game.frames)
            look(made.returncode == 0, f"{game.level}: {name}: status {made.returncode}, {made.stderr!r}")
            look(made.stdout == wanted, f"{game.level}: {name} tells other things:\n{made.stdout[:600]!r}\nfor\n{wanted[:600]!r}")
        for words in [checked, *threads] if checked else []:
            made = call(*words, caller, *LookedAt(games[-1]).words, 5)
            look(made.returncode == 0, f"{name} under {words[0]}: {made.stderr[-2000:]!r}")
    return count, left_out
