"""Plays many games of one level, each with dice of its own number, on many processors or machines.

    python3 -m btworld.sweep LEVEL --games 10000 --goal 'A . 8,2 [*]' --out games.jsonl
    python3 -m btworld.sweep LEVEL .. --scheduler tcp://HOST:8786     by the workers of a Dask cluster
    python3 -m btworld.sweep LEVEL .. --chunk K/N > part-K.jsonl      the K-th of N parts: an array of Slurm jobs, GNU parallel
    python3 -m btworld.sweep --sum FILE ..                            what the parts come to
    python3 -m btworld.sweep --again FILE ..                          reports of odd games, played again: status 1 where one differs

The first line tells what is played; then comes a line of JSON for each game: its number, its frames, whether the goal was reached, and the
digest of its last state; of an odd game also why it is odd, and its script. The lines are the same on any number of processes and
machines, in whatever order, and so is the digest of all, which is printed at the end. It is the beginning of what
`LC_ALL=C sort -u FILE .. | grep '"game"' | sha256sum` prints. A sweep that was interrupted resumes when the same command is given again. A
process or a worker that is killed loses its batch, which is played again.

A policy chooses the signals of each frame. It is `random`, which switches a signal in a fifth of the frames, `random:0.5`, `idle`, or a
function by MODULE:FUNCTION: of the game before the frame, the letters, and dice (a random.Random); it returns signals. Odd games are those
at the `goal`, those that `missed` it, `never` any, or those for which a function MODULE:FUNCTION of the game at its end returns a text that
says why. Modules are imported where the games are played."""
from __future__ import annotations

import argparse
import os
import re
import sys
from pathlib import Path
from typing import IO, Sequence

from ..errors import BtworldError
from ..level import Level
from ..report import Report
from .engines import here, over_dask, over_processes
from .plan import Plan, judge_of, policy_of
from .progress import Progress
from .results import ResultsError, digest_of, games_in, summary_of, write_reports


def _part(text: str) -> tuple[int, int]:
    part, parts = map(int, text.split("/"))
    if not 1 <= part <= parts:
        raise ValueError
    return part, parts


def _pattern(text: str) -> str:
    try:
        re.compile(text)
    except re.error as error:
        raise argparse.ArgumentTypeError(f"{text!r} is no pattern: {error}") from None
    return text


def parser() -> argparse.ArgumentParser:
    words = argparse.ArgumentParser("btworld.sweep", description=__doc__, formatter_class=argparse.RawDescriptionHelpFormatter)
    words.add_argument("level", nargs="?", type=Path)
    words.add_argument("--sum", nargs="+", metavar="FILE")
    words.add_argument("--again", nargs="+", metavar="FILE")
    words.add_argument("--letters", help="the signals that a policy may switch; those that the level asks for where none are given")
    words.add_argument("--goal", type=_pattern, help="a pattern for the whole line of an agent; a game ends where it is reached")
    words.add_argument("--policy", default="random")
    words.add_argument("--odd", default="never")
    for name, default in (("games", 1000), ("frames", 100), ("first", 0), ("seed", 0), ("batch", 25)):
        words.add_argument(f"--{name}", type=int, default=default)
    words.add_argument("--check", action="store_true", help="play each game again by its script; one that comes out otherwise is odd")
    where = words.add_mutually_exclusive_group()
    where.add_argument("--processes", type=int, default=len(os.sched_getaffinity(0)))
    where.add_argument("--scheduler", metavar="ADDRESS", help="the address of a Dask scheduler, or its scheduler file")
    where.add_argument("--chunk", type=_part, metavar="K/N")
    words.add_argument("--out", type=Path, help="the file of the results; standard output where none is given")
    words.add_argument("--reports", type=Path, metavar="DIR", help="a folder for a report of each odd game")
    words.add_argument("--progress", action="store_true", default=sys.stderr.isatty())
    return words


def main(words: Sequence[str] | None = None) -> int:
    reader = parser()
    given = reader.parse_args(words)
    if not (given.level or given.sum or given.again):
        reader.error("a level is wanted, or --sum, or --again")
    if min(given.games, given.frames, given.batch, given.processes) < 1 or given.first < 0:
        reader.error("games, frames, batch and processes are 1 or more, and first is 0 or more")
    try:
        if given.sum:
            print(summary_of(given.sum))
            return 0
        return _again(given.again) if given.again else _sweep(given)
    except (BtworldError, ResultsError, OSError) as error:
        print(error, file=sys.stderr)
        return 2


def _again(files: Sequence[str]) -> int:
    status = 0
    for path in files:
        try:
            difference = Report.read(Path(path).read_bytes()).difference()
        except ValueError as error:
            raise ResultsError(f"{path} is no report: {error}") from None
        print(f"{path}: {difference or 'the same here'}")
        status |= bool(difference)
    return status


def _sweep(given: argparse.Namespace) -> int:
    level = Level(given.level)
    letters = level.signals if given.letters is None else given.letters
    plan = Plan(level, letters, given.first, given.games, given.frames, given.goal, given.policy, given.odd, given.check, given.seed)
    if not letters and plan.policy.startswith("random"):
        raise ResultsError("no signal of this level changes a frame: name --letters, or take --policy idle")
    try:
        policy_of(plan.policy), judge_of(plan.odd)
    except (ValueError, ImportError, AttributeError) as error:
        raise ResultsError(f"--policy {plan.policy} --odd {plan.odd}: {error}") from None
    numbers = plan.numbers(*(given.chunk or (1, 1)))
    known = games_in(given.out, plan.head()) if given.out and given.out.exists() else set()
    left = [it for it in numbers if it not in known]
    batches = [left[at : at + given.batch] for at in range(0, len(left), given.batch)]
    progress = Progress(len(numbers) - len(left), len(numbers), given.progress)
    if given.scheduler:
        found = over_dask(plan, batches, given.scheduler)
    elif given.chunk or given.processes == 1:
        found = here(plan, batches)
    else:
        found = over_processes(plan, batches, given.processes)
    file: IO[str] = open(given.out, "a") if given.out else sys.stdout
    lines: list[str] = []
    try:
        if not (given.out and given.out.stat().st_size):
            file.write(plan.head())
        for batch in found:
            file.write("".join(batch))
            file.flush()
            lines += batch
            progress.add(len(batch))
    except KeyboardInterrupt:
        resume = "; the same command resumes it" if given.out else ""
        print(f"\ninterrupted; {progress.figures()}{resume}", file=sys.stderr)
        return 130
    except ImportError as error:
        raise ResultsError(f"a module is missing where the games are played: {error}") from None
    finally:
        if given.out:
            file.close()
    if given.out:
        lines = given.out.read_text().splitlines(True)[1:]
    _tell(given, level, lines, progress)
    return 0


def _tell(given: argparse.Namespace, level: Level, lines: Sequence[str], progress: Progress) -> None:
    if given.reports:
        print(f"{write_reports(level, lines, given.reports)} reports in {given.reports}", file=sys.stderr)
    if given.progress:
        print(progress.figures(), file=sys.stderr)
    reached = sum('"goal": true' in it for it in lines)
    print(f"{reached} of {len(lines)} games reached the goal; digest of all {digest_of(lines)}", file=sys.stderr)
