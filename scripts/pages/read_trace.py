#!/usr/bin/env python3
"""Reads a trace that `btview trace` wrote as viewers of Chrome's trace format do, and compares it with its log.

    scripts/pages/read_trace.py TRACE LOG    says how many slices and arrows there are
    scripts/pages/read_trace.py              makes and reads a trace of each sample level, by 4 and 16 workers; needs ./prove

Each entry has the fields of its phase; each lane in which something stands has a name and a place; slices of a lane are
apart; each begin and each frame shown of the log has its slice, and nothing else has. An arrow leads from a job of a
Logic, or of a Think with its Paths, to the next one of the same: into each Path, and each job that goes on, and nowhere
else. A trace that has lost an arrow, a slice or a lane's name has to be refused."""
import json
import subprocess
import sys
import tempfile
from pathlib import Path

TOP = Path(__file__).resolve().parents[2]
FIELDS = {"M": {"name", "args"}, "X": {"tid", "ts", "dur", "cat", "name", "args"}}
# (the printer's lane, by the first word of the log)
PRINTER = {"btworld": 17, "btjobs": 65}


def begins_of(log):
    """Returns what the slices of a log have to be: of each lane and event the kind of job, and what an arrow leads into."""
    begins, ends = {}, {}
    printer = PRINTER[log.split()[0]]
    for at, line in enumerate(it for it in log.splitlines()[1:] if not it.startswith("#")):
        words = line.split()
        if words[0] == "emit":
            begins[printer, at] = "emit"
        elif words[1:] and words[1] in ("start", "resume"):
            here = int(words[0]) + 1, at
            begins[here] = words[2]
            # (a Logic by its frame, a Think and its Paths by frame and agent)
            joined = words[3:4] if words[2] == "logic" else words[3:5] if words[2] in ("think", "path") else None
            if joined:
                ends[here] = tuple(joined), words[2] == "path" or words[1] == "resume"
    return begins, ends


def read(trace, log):
    """Returns how many slices and arrows a trace has."""
    entries = json.loads(trace)["traceEvents"]
    for it in entries:
        assert it["pid"] == 1 and FIELDS[it["ph"]] <= it.keys(), it
    told = {(it["name"], it.get("tid")) for it in entries if it["ph"] == "M"}
    slices = sorted((it for it in entries if it["ph"] == "X"), key=lambda it: it["ts"])
    found = {(it["tid"], it["ts"]): it["cat"] for it in slices}
    begins, joined = begins_of(log)
    assert len(found) == len(slices) and found == begins, "other slices than the log's"
    ends, numbers, whoses, arrows = {}, {}, {}, 0
    for it in slices:
        lane = it["tid"]
        assert {("thread_name", lane), ("thread_sort_index", lane)} <= told, f"a lane of no name: {it}"
        assert ends.get(lane, 0) <= it["ts"] and it["dur"] > 0, f"two at once: {it}"
        ends[lane] = it["ts"] + it["dur"]
        whose, is_led_into = joined.get((lane, it["ts"]), (None, False))
        assert it.get("flow_out", False) == (whose is not None), f"an arrow from here is too much or lost: {it}"
        assert it.get("flow_in", False) == is_led_into, f"an arrow to here is too much or lost: {it}"
        if whose:
            # (a number joins the jobs of one Logic or Think, and no others)
            number = it["bind_id"]
            assert not is_led_into or whose in numbers, f"an arrow from nowhere: {it}"
            assert numbers.setdefault(whose, number) == number, f"an arrow from another job: {it}"
            assert whoses.setdefault(number, whose) == whose, f"an arrow from another job: {it}"
        arrows += is_led_into
    return len(slices), arrows


def is_refused(trace, log):
    try:
        read(trace, log)
    except AssertionError:
        return True
    return False


def ran(*words):
    return subprocess.run([TOP / words[0], *words[1:]], check=True, stdout=subprocess.PIPE).stdout.decode()


def main():
    if len(sys.argv) == 3:
        trace, log = (Path(it).read_text() for it in sys.argv[1:])
        print("%d slices, %d arrows" % read(trace, log))
        return
    levels, spoilt, missed = sorted((TOP / "levels").glob("*.json")), 0, []
    with tempfile.TemporaryDirectory() as folder:
        log = f"{folder}/level.log"
        for level in levels:
            script = level.with_suffix(".script")
            scripted = ("--script", script) if script.exists() else ()
            for workers in ("4", "16"):
                ran("btworld", "play", level, "--frames", "40", "--workers", workers, "--log", log, *scripted)
                trace, text = ran("btview", "trace", log), Path(log).read_text()
                slices, arrows = read(trace, text)
                assert slices and arrows, f"{level.name}: nothing to read"
                print(f"{level.name}, {workers} workers: {slices} slices, {arrows} arrows")
                lines = trace.splitlines(keepends=True)
                at = next(k for k, it in enumerate(lines) if '"flow_in"' in it)
                for what, spoilt_line in (
                    ("an arrow to a slice", lines[at].replace(',"flow_in":true', "")),
                    ("an arrow from a slice", lines[at].replace(',"flow_out":true', "")),
                    ("an arrow's number", lines[at].replace('"bind_id":"', '"bind_id":"9')),
                    ("a slice", ""),
                ):
                    spoilt += 1
                    if not is_refused("".join([*lines[:at], spoilt_line, *lines[at + 1 :]]), text):
                        missed.append(f"{level.name}: {what} is lost, and nothing is said")
    print(f"{spoilt} spoilt traces, {len(missed)} not refused", *missed, sep="\n")
    sys.exit(bool(missed or not levels))


if __name__ == "__main__":
    main()
