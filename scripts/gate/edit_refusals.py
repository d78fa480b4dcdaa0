#!/usr/bin/env python3
"""Compares what refuses each wrong body with what its file says does.

    scripts/gate/edit_refusals.py [--all] [--write] LOG..

A LOG is what `rt ci` or `rt must-fail` said; both tell of an edit that was tried before what they told then, so nothing is tried for
this. A file of must-fail/ may have a line `# refused-by: FUNCTION CLAUSE`: FUNCTION is the function that was edited, with its type before
it or without, and CLAUSE the name of its `ensures`, the word `ensures` where that has no name, or `invariant`; of a
mistake that shows first at a call it may be the prover's own name of that goal, as `start-requires-clause-place`. The first thing that
the prover names has to be that clause of that function: what another function requires, a proof that is missing and a sum that may
overflow show nothing of a contract. Edits without the line are counted, and are wrong with --all, but for wrong definitions, which a law
refuses. With --write an edit without the line gets the one that a log tells, where that is a clause of the function that was
edited, and those of which no log tells are left out, so that logs of single crates will do. Made-up lines of a log are compared first."""
import re
import sys
from pathlib import Path

TOP = Path(__file__).resolve().parents[2]
TOLD = re.compile(r"^(?:rt: )?must-fail (\w+)/(\S+\.edit): (refused, as it must be|NOT REFUSED|NOT TRIED|BAD EDIT)(?: \([^)]*\))?:? ?(.*)")
AT_CODE = re.compile(r"(?:note: )?(?:\./)?(src/\S+?):(\d+):\d+: (.*)")
AT_PROOF = re.compile(r"(?:note: )?(?:\./)?proofs/(\S+)/\w+\.antt:\d+:\d+: (.*)")


def function_at(text, line):
    """Returns the function in which a line of a source stands, or before which with its attributes, and the type whose it is."""
    name = owner = ""
    lines = text.split("\n")
    end = next((at for at in range(int(line), len(lines)) if not re.match(r"\s*(#\[|///)", lines[at - 1])), len(lines))
    for it in lines[:end]:
        if it == "}":
            owner = ""
        found = re.match(r"\s*(?:pub(?:\([a-z]+\))? )?(?:const |unsafe |extern \"C\" )*fn (\w+)", it)
        if found:
            name = found[1]
        found = re.match(r"impl\b.*?([\w]+)(?:<[^{]*>)? \{?$", it.split(" where")[0].rstrip())
        if found:
            owner = found[1]
    return owner, name


def goal_of(said):
    """Returns the name of the goal that is left, or "" where the prover names none."""
    # rt cuts long lines, perhaps within the name.
    if "the `invariant` of the struct" in said:
        return "invariant"
    found = re.match(r"error: `([\w-]+)`: ", said) or re.search(r"\(`([\w-]+)`?", said) or re.search(r"`([\w-]+)`", said)
    return found[1] if found else ""


def named(said, source):
    """Returns the type, the function and the goal that the prover names. `source` gives the text of a file of the crate."""
    at = AT_CODE.match(said)
    if at:
        return (*function_at(source(at[1]), at[2]), goal_of(at[3]))
    at = AT_PROOF.match(said)
    if not at:
        return "", "", ""
    folder, goal = at[1].split("/")[-1], goal_of(at[2])
    # Functions that call each other share a folder, called by one of them with a plus; there a goal begins with its function's name.
    if folder.startswith("+"):
        function, _, rest = goal.partition("-")
        return ("", function, rest) if rest and function != "returns" else ("", folder[1:], goal)
    return "", folder, goal


def clause_of(goal):
    """Returns the clause of a goal's function: a name, `ensures`, `invariant`, or "" where it is no clause of its own."""
    if re.match(r"returns(-|$)", goal):
        found = re.search(r"-clause-([\w-]+)$", goal)
        return found[1] if found else "ensures"
    return "invariant" if re.search(r"(^|-)(invariant|invariant_of|init|preserved|begins|kept)(-|$)", goal) else ""


def why_wrong(wanted, said, source):
    """Returns why a refusal isn't the one that is wanted, or None."""
    words = wanted.split()
    if len(words) != 2:
        return f"`refused-by: {wanted}` is no function and its clause"
    owner, name, goal = named(said, source)
    *types, function = words[0].split("::")
    clause = clause_of(goal)
    if name == function and (not types or owner in ("", types[-1])) and words[1] in (clause, goal):
        return None
    return f"{wanted} has to refuse it, and the prover names {'::'.join(it for it in (owner, name) if it) or 'no function'} {goal or said[:120]!r}"


def line_of(edit, said, source):
    """Returns the line that the log tells of an edit: of the first function that was edited, the clause that the prover names."""
    path = re.search(r"(?m)^file: *(\S+)", edit)[1]
    old = re.search(r"(?m)^old: ?(.*)", edit)[1]
    text = source(path)
    owner, function = function_at(text, text[: text.index(old)].count("\n") + 1)
    clause = clause_of(named(said, source)[2])
    line = f"{owner}::{function} {clause}" if owner else f"{function} {clause}"
    return line if clause and why_wrong(line, said, source) is None else None


def look_at_itself():
    """Returns which made-up lines are taken wrongly."""
    source = lambda _: "impl Marks {\n    fn least(self) -> u16\n        ensures { a }\n    {\n    }\n\n    pub fn first_with(self) -> Dir\n        ensures first { b }\n    {\n    }\n\n    #[tactic(auto)]\n    /// None.\n    pub fn none(&mut self)\n"
    note = "note: src/marks.rt:{}:5: it is not proved that {} (`{}`)"
    lines = [
        (True, "Marks::first_with first", note.format(9, "what the function ensures holds when it returns", "returns-then-clause-first")),
        (True, "least ensures", note.format(4, "what the function ensures holds when it returns", "returns")),
        (True, "first_with first", "./proofs/marks/first_with/Answers.antt:3:9: error: `returns-clause-first`: it is not so"),
        (True, "Marks::none ensures", note.format(12, "what the function ensures holds when it returns", "returns")),
        (True, "none invariant", note.format(14, "the `invariant` of the struct holds", "invariant_of-self-2")),
        (True, "size ensures", "./proofs/node/Node/+size/Answers.antt:3:9: error: `size-returns-in-Some`: it is not so"),
        (True, "size ensures", "./proofs/node/Node/+size/Answers.antt:3:9: error: `returns`: it is not so"),
        (False, "size ensures", "./proofs/node/Node/+size/Answers.antt:3:9: error: `depth-returns`: it is not so"),
        (True, "least invariant", "note: src/marks.rt:4:5: it is not proved that the `invariant` of the struct's `impl Model` holds of its fields (`invaria"),
        (True, "least invariant", note.format(4, "the invariant of the loop holds", "places-init")),
        (True, "least invariant", "./proofs/marks/least/Answers.antt:3:9: error: `invariant_of-self`: `rw`: no occurrence: the positions of the goal (`d`)"),
        (False, "least ensures", note.format(9, "what the function ensures holds when it returns", "returns")),
        (False, "first_with has", note.format(9, "what the function ensures holds when it returns", "returns-clause-first")),
        (False, "first_with first", note.format(9, "what nearer requires holds", "nearer-requires")),
        (False, "first_with first", note.format(9, "the sum fits", "add-fits")),
        (False, "first_with first", "./proofs/Rows.antt:3:9: error: `rows`: not in scope"),
    ]
    return [f"a made-up line is taken wrongly: {said}" for is_right, wanted, said in lines if (why_wrong(wanted, said, source) is None) != is_right]


def main():
    words = [it for it in sys.argv[1:] if it not in ("--all", "--write")]
    if not words:
        sys.exit(__doc__)
    wrong, right, without, told = look_at_itself(), 0, [], {}
    for line in "\n".join(Path(it).read_text(errors="replace") for it in words).splitlines():
        found = TOLD.match(line)
        if found:
            told[found[1], found[2]] = found[3], found[4]
    edits = sorted(TOP.glob("crates/*/must-fail/*.edit"))
    if "--write" in sys.argv:
        edits = [it for it in edits if (it.parent.parent.name, it.name) in told]
    for edit in edits:
        crate, text = edit.parent.parent, edit.read_text()
        name = f"{crate.name}/{edit.name}"
        wanted = re.findall(r"(?m)^# refused-by: *(.*\S)", text)
        kind, said = told.get((crate.name, edit.name), ("nothing is told of it", ""))
        source = lambda path: (crate / path).read_text()
        if not wanted:
            if set(re.findall(r"(?m)^file: (\w+)/", text)) == {"specs"}:
                continue
            line = line_of(text, said, source) if "--write" in sys.argv and kind == "refused, as it must be" else None
            if line is None:
                without.append(name)
                continue
            edit.write_text(text.rstrip("\n") + f"\n# refused-by: {line}\n")
            wanted = [line]
        if kind != "refused, as it must be":
            wrong.append(f"{name}: {kind}")
            continue
        whys = [why_wrong(it, said, source) for it in wanted]
        if None in whys:
            right += 1
        else:
            wrong += [f"{name}: {it}" for it in whys]
    if "--all" in sys.argv:
        wrong += [f"{it}: it doesn't say what refuses it" for it in without]
    print(*wrong, f"{len(edits)} edits: {right} refused by what they say, {len(without)} that don't say it, {len(wrong)} wrong", sep="\n")
    return bool(wrong) or not told


if __name__ == "__main__":
    sys.exit(main())
