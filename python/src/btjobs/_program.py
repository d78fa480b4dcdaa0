"""A finder of a game's own in one line."""
import argparse
import json
import sys

from ._finder import compare, explore
from ._library import Error
from ._log import read_log, write_log
from ._page import page_of_finding, page_of_log


def _words(argv):
    words = argparse.ArgumentParser(description="Plays the game in orders drawn by the seeds from 1 on, and looks for one that comes to something else than the "
                                    "plain order.", epilog="Status: 0 all orders agree, 1 they don't, 2 wrong use, or the game raises in the plain order.")
    words.add_argument("--seeds", type=int, default=200, metavar="N", help="so many orders (200)")
    words.add_argument("--from", type=int, default=1, dest="start", metavar="SEED", help="the first seed (1)")
    words.add_argument("--seed", type=int, metavar="SEED", help="this one alone")
    words.add_argument("--seconds", type=float, default=0, metavar="S", help="draw no more after so many seconds")
    words.add_argument("--runs", type=int, default=0, metavar="N", help="and then so many runs on threads")
    words.add_argument("--threads", type=int, default=4, metavar="T", help="how many threads (4)")
    words.add_argument("--log", default="btjobs-order.log", metavar="FILE", help="where the order that differs is written (btjobs-order.log)")
    words.add_argument("--page", metavar="FILE", help="shows both orders, or the log of --replay, in one HTML file")
    words.add_argument("--replay", metavar="FILE", help="plays such an order again, and says what comes to something else")
    words.add_argument("--json", action="store_true", help="the report as one JSON object")
    words.add_argument("--quiet", action="store_true", help="no progress on standard error")
    return words.parse_args(argv)


def _write(path, text):
    with open(path, "w", encoding="utf-8") as file:
        file.write(text)


def _played(make, settings, words):
    if words.replay:
        with open(words.replay, encoding="utf-8") as file:
            n, workers, log = read_log(file)
        job, text = compare(make, n, workers, log)
        if words.page:
            _write(words.page, page_of_log(n, workers, log, text, job))
        print(json.dumps({"log": words.replay, "agrees": job is None, "job": job and job.json(), "text": text}) if words.json else text)
        return job is None
    shows = sys.stderr.isatty() and not words.quiet
    progress = (lambda what, at, seconds: print(f"\r{what}: {at}, {at / max(seconds, 1e-9):.0f} a second  ", end="", file=sys.stderr)) if shows else None
    seeds, start = (words.seeds, words.start) if words.seed is None else (1, words.seed)
    found = explore(make, settings, seeds, start, words.seconds, words.runs, words.threads, progress, program=f"python3 {sys.argv[0]}")
    if shows:
        print("\r" + " " * 60 + "\r", end="", file=sys.stderr)
    if found.differing_log and words.log:
        with open(words.log, "w", encoding="utf-8") as file:
            write_log(file, found.settings, found.workers, found.differing_log, str(found))
        found.file = words.log
    if words.page and not found.agrees():
        _write(words.page, page_of_finding(found))
    print(json.dumps(found.json()) if words.json else found)
    return found.agrees()


def main(make, settings, argv=None):
    """A program of one's own in one line. It ends with status 0 where all orders agree, 1 where they don't, 2 for wrong use, or where the game
    raises in the plain order."""
    words = _words(argv)
    try:
        status = 0 if _played(make, settings, words) else 1
    except (Error, OSError) as e:
        print(e, file=sys.stderr)
        status = 2
    except Exception:
        sys.excepthook(*sys.exc_info())
        status = 2
    sys.exit(status)
