#!/usr/bin/env python3
"""Reads the frames of a page that `btview page` wrote, and writes their text, as `btworld replay` does.

    scripts/pages/unroll_page.py PAGE        writes it
    scripts/pages/unroll_page.py             makes a page of each sample level, and compares it with replay's text; needs ./prove

The page of a door that nobody opens has to unroll to other frames than those of the door that its script opens."""
import json
import re
import subprocess
import sys
import tempfile
from pathlib import Path

TOP = Path(__file__).resolve().parents[2]


def held(page, name):
    """Returns what the page's element of this name holds: it ends at the first `<`."""
    return re.search(rf'<script type="[a-z/]*" id="{name}">([^<]*)</script>', page)[1]


def frames_of(page):
    """Yields the text of each frame: the first has its rows, and each further one a line of what changed in them."""
    level, film = json.loads(held(page, "level")), held(page, "frames")
    size = sum(len(row) + 1 for row in level["map"])
    rows, at = list(film[:size]), size
    for frame in range(1, json.loads(held(page, "about"))["shown"] + 1):
        if frame > 1:
            end = film.index("\n", at)
            for change in film[at:end].split(",")[:-1]:
                rows[int(change[1:])] = change[0]
            at = end + 1
        begin = at
        for _ in level["agents"]:
            at = film.index("\n", at) + 1
        yield f"frame {frame}\n{''.join(rows)}{film[begin:at]}"
    assert at == len(film) or not film, "more stands behind the frames"


def ran(*words):
    return subprocess.run([TOP / words[0], *words[1:]], check=True, stdout=subprocess.PIPE).stdout.decode()


def played(level, script, room):
    """Returns the frames in the page of a run, and those that `btworld replay` shows."""
    log, given = f"{room}/log", ["--script", script] if script else []
    ran("btworld", "play", level, *given, "--frames", "300", "--workers", "4", "--log", log)
    return "".join(frames_of(ran("btview", "page", level, log, *given))), ran("btworld", "replay", level, log, *given)


def main():
    if sys.argv[1:]:
        sys.stdout.writelines(frames_of(Path(sys.argv[1]).read_text()))
        return
    levels, wrong = sorted((TOP / "levels").glob("*.json")), []
    with tempfile.TemporaryDirectory() as room:
        for level in levels:
            script = level.with_suffix(".script")
            unrolled, shown = played(level, script if script.exists() else None, room)
            if unrolled != shown or shown.count("frame ") != 300:
                wrong.append(f"other frames: {level.name}")
        door = TOP / "levels/door.json"
        opened = played(door, door.with_suffix(".script"), room)[1]
        if played(door, None, room)[0] == opened:
            wrong.append("a door that nobody opens has the frames of one that is opened")
    print(f"{len(levels)} pages unroll to their frames, {len(wrong)} wrong; one of another script doesn't", *wrong, sep="\n")
    sys.exit(bool(wrong or not levels))


if __name__ == "__main__":
    main()
