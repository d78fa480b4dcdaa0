#!/usr/bin/env python3
"""Compares the numbers of README.md, docs/PROOFS.md and docs/DEFINITIONS.md with what stands here: crates, wrong bodies and wrong
definitions, the rows of the table of sizes (scripts/documents/sizes.py, by the groups of crates.txt), what the gate passed, and how much a promise's words rest on (scripts/documents/to_read.py);
and whether each edit that docs/PROOFS.md names for a mistake stands in its crate's must-fail/, where the gate tries it.

    scripts/documents/compare_numbers.py [--mend] [LOG]

LOG is what `rt ci` said: its last line has how much passed. Where it isn't given that is a crate and an edit of must-fail/ each. With --mend the
documents get the right numbers, and rows of groups that are gone go. Each number is first looked for in a copy where it is higher by one:
that has to be found."""
import re
import sys
from pathlib import Path

TOP = Path(__file__).resolve().parents[2]
sys.dont_write_bytecode = True
sys.path[:0] = [str(TOP / "scripts" / it) for it in ("shared",)]
import crates
import sizes
import to_read

NUMBER = r"([\d,]+)"
# A row of the table of sizes: a group of crates.txt, how many crates it has, and the numbers of these.
ROW = r"(?m)^\| {} \|" + rf" {NUMBER} \|" * 5


# The definitions whose files the headings of docs/DEFINITIONS.md count; a later heading counts those of an earlier one too.
JOBS = ["game_jobs/specs/Instance", "job_core/specs/Values"]
LOGS = [*JOBS, "job_scheduler/specs/Numbers", "draw_list/specs/Bands", "task_board/specs/Setups", "replay_log/specs/Replays"]
READ = [
    (rf"## Frames: {NUMBER} files, {NUMBER} lines", ["game_rules/specs/Text"]),
    (rf"## Bytes: {NUMBER} files, {NUMBER} lines", ["level_text/specs/Games"]),
    (rf"## Jobs: {NUMBER} files, {NUMBER} lines", JOBS),
    (rf"## Logs: {NUMBER} files, {NUMBER} lines", LOGS),
    (rf"`run_bytes` rests on {NUMBER} files of {NUMBER} lines", ["play_run/specs/Plays"]),
]


def passed_in(path):
    last = Path(path).read_text(errors="replace").rstrip("\n").split("\n")[-1]
    found = re.fullmatch(r"(\d+) passed, 0 failed", last)
    return int(found[1]) if found else sys.exit(f"the last line of {path} isn't that of a gate that passed: {last}")


def facts(given):
    """Yields of each fact its document, a form that stands there at least once, and the numbers that it has to have."""
    rows = sizes.rows()
    *_, bodies, definitions = (sum(it) for it in zip(*rows.values()))
    in_gate = len([*TOP.glob("crates/*/must-fail/*.edit")])
    passed = passed_in(given) if given else len(rows) + in_gate
    for document in ("README.md", "docs/PROOFS.md"):
        yield document, rf"\*\*{NUMBER} passed, (?:none|0) failed\*\*", [passed]
        yield document, rf"{NUMBER} wrong definitions", [definitions]
    yield "README.md", rf"each of the {NUMBER} crates", [len(rows)]
    yield "README.md", rf"each of the {NUMBER} wrong bodies", [bodies]
    yield "README.md", rf"{NUMBER} of them in", [in_gate]
    yield "docs/PROOFS.md", rf"{NUMBER} crates, {NUMBER} wrong bodies", [len(rows), bodies]
    for form, roots in READ:
        read = to_read.lines_by_file(roots)
        yield "docs/DEFINITIONS.md", form, [len(read), sum(read.values())]
    for title, names in [*crates.groups().items(), ("All", [*rows])]:
        code, tests, of_definitions, proofs, *edits = (sum(it) for it in zip(*(rows[name] for name in names)))
        # (the table's bodies are all edits, wrong definitions too)
        yield "docs/PROOFS.md", ROW.format(re.escape(title)), [len(names), code + tests, of_definitions, proofs, sum(edits)]


def gone(text):
    """Returns what is wrong with the table of the mistakes that each part was made to exclude."""
    table = re.search(r"(?ms)^\| Mistake \|.*?\n\n", text)
    named = re.findall(r"`(\w+)/(\w+)`", table[0]) if table else []
    missing = lambda names: [f"docs/PROOFS.md: no edit of the gate: {crate}/{it}" for crate, it in names if not (TOP / f"crates/{crate}/must-fail/{it}.edit").exists()]
    if not named or not missing([(named[0][0], "an_edit_that_is_gone")]):
        return ["docs/PROOFS.md: the table of mistakes is not read"]
    return missing(named)


def numbers_of(found):
    """Returns the numbers of a match, where a group may be a part of a row."""
    return [int(it.replace(",", "")) for group in found.groups() for it in group.split()]


def differing(text, form, wanted):
    """Returns what is wrong with a fact in a text, in words, or None."""
    found = [numbers_of(it) for it in re.finditer(form, text)]
    if not found:
        return f"nothing has the form {form}"
    return next((f"{it}, and it is {wanted}: {form}" for it in found if it != wanted), None)


def put(text, form, numbers):
    """Returns the text with these numbers in each match, a row's in their columns."""

    def mended(found):
        left, whole, base = [*numbers], found[0], found.start()
        for group in range(found.re.groups, 0, -1):
            at = found.start(group) - base
            old = found[group]
            if " " in old:
                new = "".join(str(left.pop(0)).rjust(len(it)) for it in re.findall(r" +[\d,]+", old))
            else:
                new = f"{left.pop():,}" if "," in old else str(left.pop())
            whole = whole[:at] + new + whole[at + len(old) :]
        return whole

    return re.sub(form, mended, text)


def main():
    words = sys.argv[1:]
    mends = "--mend" in words
    given = next((it for it in words if it != "--mend"), None)
    wrong, count, texts = [], 0, {}
    for document, form, wanted in facts(given):
        text = texts.setdefault(document, (TOP / document).read_text())
        count += 1
        if mends:
            texts[document] = text = put(text, form, wanted)
        why = differing(text, form, wanted)
        raised = put(text, form, [*wanted[:-1], wanted[-1] + 1])
        if why:
            wrong.append(f"{document}: {why}")
        elif not differing(raised, form, wanted):
            wrong.append(f"{document}: a wrong number is not found: {form}")
    table = texts["docs/PROOFS.md"]
    wrong += gone(table)
    count += 1
    for row, title in re.findall(rf"(?m)^(\| ([^|\n]+) \|(?: {NUMBER} \|){{5}}\n)".replace(NUMBER, r"[\d,]+"), table):
        if title != "All" and title not in crates.groups():
            texts["docs/PROOFS.md"] = texts["docs/PROOFS.md"].replace(row, "")
            wrong += [] if mends else [f"docs/PROOFS.md: a row of no group: {title}"]
    for document, text in texts.items() if mends else ():
        (TOP / document).write_text(text)
    print(*wrong, f"{count} facts, {len(wrong)} wrong", sep="\n")
    return bool(wrong) or not count


if __name__ == "__main__":
    sys.exit(main())
