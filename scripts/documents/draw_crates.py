#!/usr/bin/env python3
"""Draws docs/crates.svg from crates.txt: the crates in their groups, each above those that it is made of, for light and dark pages.

    scripts/documents/draw_crates.py            writes docs/crates.svg, by graphviz (Debian's package of that name)
    scripts/documents/draw_crates.py --check    tells whether it has the crates and edges of crates.txt

An arrow goes from a crate to one that it uses; an arrow that longer ways imply is left out, and so are the crates of tests."""
import re
import subprocess
import sys
from pathlib import Path

TOP = Path(__file__).resolve().parents[2]
sys.dont_write_bytecode = True
sys.path[:0] = [str(TOP / "scripts" / it) for it in ("shared",)]
import crates

PICTURE = TOP / "docs/crates.svg"
TESTS = re.compile(r"_tests$|^cases$")
# The fill and the line of each group's crates, on light pages and on dark ones.
COLOURS = [("#e6e0f5", "#6a3fb5", "#3a2f55", "#b79bf0"), ("#dbe9f8", "#1668b8", "#213a55", "#7ab4ee"), ("#d6eee1", "#1d7f4e", "#1f4433", "#6fcf9f"), ("#fbe7cf", "#b35c00", "#4d3a22", "#e6a55c"),
           ("#fbe0e0", "#b02626", "#4f2a2d", "#ee8c8c"), ("#e9edf2", "#55606f", "#343d4a", "#a9b6c7"), ("#e2f1f4", "#0f7285", "#1c4048", "#6fc9da"), ("#f3efd4", "#7c6a00", "#45402a", "#d8c765")]
STYLE = "text { font-family: system-ui, sans-serif; fill: #1c2430 }\n.edge path { stroke: #8a94a3 } .edge polygon { fill: #8a94a3; stroke: #8a94a3 }\n"
DARK = "text { fill: #e4e9f0 }\n.edge path { stroke: #64748a } .edge polygon { fill: #64748a; stroke: #64748a }\n"


def style():
    """Returns the style of the picture."""
    light = "".join(f".group{at} path {{ fill: {it[0]}; stroke: {it[1]} }}\n" for at, it in enumerate(COLOURS))
    dark = "".join(f".group{at} path {{ fill: {it[2]}; stroke: {it[3]} }}\n" for at, it in enumerate(COLOURS))
    return f"{STYLE}{light}@media (prefers-color-scheme: dark) {{\n{DARK}{dark}}}\n"


def listed():
    """Returns the groups of crates.txt, each its title and crates, and what each crate uses of this repository; without the crates of tests."""
    needs = {name: libraries for name, libraries in crates.needs().items() if not TESTS.search(name)}
    groups = [(title, [it for it in names if it in needs]) for title, names in crates.groups().items()]
    return groups, {name: [it for it in libraries if it in needs] for name, libraries in needs.items()}


def reduced(needs):
    """Returns what each crate uses by no other crate that it uses."""
    above = {name: set(libraries) for name, libraries in needs.items()}

    def all_below(name):
        return set().union(*({it} | all_below(it) for it in above[name])) if above[name] else set()

    return {name: sorted(it for it in libraries if not any(it in all_below(other) for other in libraries if other != it)) for name, libraries in needs.items()}


def drawn(groups, edges):
    """Returns the picture as graphviz draws it."""
    lines = ["digraph crates {", 'rankdir=TB; splines=ortho; nodesep=0.22; ranksep=0.4;',
             'node [shape=box, style="rounded,filled", fontname="Helvetica", fontsize=13, height=0.32, margin="0.12,0.04"]; edge [arrowsize=0.5];']
    for number, (_, names) in enumerate(groups):
        lines += [f'{it} [class="group{number}"];' for it in names]
    # What the colours mean, in a column of its own.
    legend = [(number, title) for number, (title, names) in enumerate(groups) if names]
    lines += [f'legend{number} [label="{title}", class="group{number}"];' for number, title in legend]
    lines += [f"legend{one} -> legend{other} [style=invis];" for (one, _), (other, _) in zip(legend, legend[1:])]
    lines += [f"{name} -> {it};" for name, below in edges.items() for it in below]
    made = subprocess.run(["dot", "-Tsvg"], input="\n".join([*lines, "}"]), check=True, capture_output=True, text=True).stdout
    made = re.sub(r"<!--.*?-->\n?|<\?xml.*?\?>\n|<!DOCTYPE.*?>\n|<polygon fill=\"white\"[^>]*/>\n", "", made, flags=re.S)
    made = re.sub(r' (stroke|font-family)="[^"]*"| fill="(?!none)[^"]*"', "", made)
    return re.sub(r"(<svg[^>]*>)", lambda it: f"{it[1]}\n<style>{style()}</style>", made, count=1)


def held(text):
    """Returns the crates and the arrows that a picture has."""
    return sorted(it.replace("&#45;", "-").replace("&gt;", ">") for it in re.findall(r"<title>(.*?)</title>", text) if not it.startswith(("legend", "crates")))


def main():
    groups, needs = listed()
    edges = reduced(needs)
    if sys.argv[1:] == ["--check"]:
        wanted = sorted([*needs, *(f"{name}->{it}" for name, below in edges.items() for it in below)])
        differ = set(wanted) ^ set(held(PICTURE.read_text()))
        print(*(f"docs/crates.svg: {it} is not as in crates.txt" for it in sorted(differ)), f"{len(wanted)} crates and arrows, {len(differ)} wrong", sep="\n")
        return bool(differ)
    PICTURE.write_text(drawn(groups, edges))
    return 0


if __name__ == "__main__":
    sys.exit(main())
