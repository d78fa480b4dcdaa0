"""The lines of results: in files, joined, and as reports."""
from __future__ import annotations

import hashlib
import json
from pathlib import Path
from typing import Iterable, Sequence

from ..level import Level
from ..report import Report


class ResultsError(ValueError):
    """Files that don't fit the plan, or each other."""


def games_in(path: Path, head: str) -> set[int]:
    """The numbers of the games that a file has. A line that was not written to its end is cut off."""
    with open(path, "r+b") as file:
        data = file.read()
        whole = data[: data.rfind(b"\n") + 1]
        lines = whole.decode().splitlines(True)
        if lines and lines[0] != head:
            raise ResultsError(f"{path} has the results of another sweep: {lines[0].rstrip()}")
        file.truncate(len(whole))
    return {json.loads(it)["game"] for it in lines[1:]}


def digest_of(lines: Iterable[str]) -> str:
    """The digest of the lines of all games, in whatever order they come."""
    return hashlib.sha256("".join(sorted(lines)).encode()).hexdigest()[:16]


def summary_of(files: Sequence[str]) -> str:
    """What the files of all parts come to. ResultsError: they are of more than one sweep, a game is missing, or has two results."""
    heads: set[str] = set()
    games: dict[int, str] = {}
    for path in files:
        for line in Path(path).read_text().splitlines(True):
            result = json.loads(line)
            if "game" not in result:
                heads.add(line)
            elif games.setdefault(result["game"], line) != line:
                raise ResultsError(f"game {result['game']} has two results")
    if len(heads) != 1:
        raise ResultsError(f"these are the results of {len(heads)} sweeps")
    head = json.loads(heads.pop())
    missing = sorted(set(range(head["first"], head["first"] + head["games"])) - games.keys())
    if missing:
        raise ResultsError(f"{len(missing)} games are missing, the first is {missing[0]}")
    odd = sum("odd" in json.loads(it) for it in games.values())
    return f"{len(games)} games, {odd} odd; digest of all {digest_of(games.values())}"


def write_reports(level: Level, lines: Iterable[str], folder: Path) -> int:
    """Write a report of each odd game, and return how many. Each is played again first; one that comes out otherwise says so."""
    folder.mkdir(parents=True, exist_ok=True)
    count = 0
    for result in map(json.loads, lines):
        if "odd" in result:
            report = Report(level, result["script"], result["frames"], f"{level.digest:016x}", result["digest"], result["odd"])
            difference = report.difference()
            if difference:
                report = report._replace(why=f"{report.why}; {difference}")
            (folder / f"game-{result['game']}.json").write_text(report.text())
            count += 1
    return count
