#!/usr/bin/env python3
"""Builds play.html, one file in which a browser plays levels, and live.html, by which a page of `btview page` shows the answers of nodes, of
the proved sources of crates/btworld_c and of what page/ holds.

    scripts/pages/play_page.py                     builds both again
    scripts/pages/play_page.py --check [PROGRAM]   builds them in a folder of its own, says whether those that stand here have just these bytes,
                                          and plays by play.html in node: the sample levels and 500 small random ones, compared byte for byte with what
                                          btworld writes (PROGRAM, else crates/btworld/out/btworld, which ./prove and rt ci build),
                                          and a module whose memory ends early
    scripts/pages/play_page.py --keep-module       puts page/ around the module of the play.html that stands there: in a second, for work on the
                                          pages themselves. Whether that module is of today's sources, --check says

The exit status is 0 where all of that is well, 1 where something differs, 2 where something is missing, which a line names. Needed
are the Rattle kit and wasm-opt (binaryen), for --check node too. Where `rt ci` has just proved the crates below, as in CI, btworld_c is
proved over what that left, in two minutes; else `rt lib` proves and builds what has changed, and what stands built is taken. The
rest takes a minute.

rattle compiles no call of C for wasm64, so a library with the heap of std can't be built for it (and `rt ci` takes none). What it
hands to clang for x86-64 has pointers, sizes and alignments as wasm64 has them. So `rattle build`, which builds nothing that is not
proved, gets a toolchain whose clang keeps what it is given, LLVM's bitcode; the kit's clang compiles that for wasm64, with page/heap.c
for the kit's three names over malloc and page/wide.c for arithmetic of 128 bits, its linker links it, and wasm-opt takes 32 bits of
each address, for browsers without a 64-bit memory. Of the same sources, kit and wasm-opt the same bytes come."""
import base64
import gzip
import html
import json
import re
import shutil
import subprocess
import sys
import tempfile
from pathlib import Path

TOP = Path(__file__).resolve().parents[2]
sys.dont_write_bytecode = True
sys.path[:0] = [str(TOP / "scripts" / it) for it in ("shared",)]
import crates
import rattle
from rattle import kit

PAGE, CRATE = TOP / "page", TOP / "crates/btworld_c"
TEXTS = TOP / "crates/page_text/src"
PROGRAM = TOP / "crates/btworld/out/btworld"
STYLES = "controls play tree texts lessons".split()
# What plays and knows texts needs no document: the tests read it too.
CORE = "glue film json level nodes goals lessons".split()
SCRIPTS = "state texts show tree trees why node edits seek stops signals editors paint files links course hands".split()
# What a page of `btview page` gets behind it.
LIVE_STYLES = "controls tree live".split()
LIVE_SCRIPTS = "glue film json level nodes live tree why node seek".split()
# The level that the page begins with.
FIRST = "warehouse"
# How many pages of 65536 bytes the memory has that ends early.
FEW_PAGES = 20
FLAGS = ["--no-default-config", "--target=wasm64-unknown-unknown", "-mcpu=lime1", "-c", "-ffunction-sections", "-fdata-sections"]
# At -O3 clang would find its own library's product of 128 bits in wide.c, and call that.
OF_C = ["-O2", "-ffreestanding", "-fno-builtin", "-Wall", "-Wextra", "-Werror", "-Wno-unused-parameter", "-x", "c"]
LOWERED = ["memory64", "bulk-memory", "sign-ext", "mutable-globals", "nontrapping-float-to-int"]


def say(text):
    print(f"play_page: {text}", file=sys.stderr, flush=True)


def stop(text, status=1):
    say(text)
    sys.exit(status)


def what_is_missing(is_check, program):
    """Yields in words what is needed and isn't there."""
    if not shutil.which("rt") or not shutil.which("rattle"):
        yield "the Rattle kit (rt and rattle)"
    elif not (kit() / "toolchain/bin/clang").exists():
        yield "clang, of the Rattle kit's toolchain, which is its wasm-ld too"
    if not shutil.which("wasm-opt"):
        yield "wasm-opt (apt-get install binaryen)"
    elif "memory64-lowering" not in ran("wasm-opt", "--help"):
        yield "a wasm-opt that knows --memory64-lowering (binaryen 108 or later)"
    if is_check and not shutil.which("node"):
        yield "node"
    if is_check and not program.exists():
        yield f"{program} (./prove or rt ci builds crates/btworld/out/btworld)"


def ran(*words, **how):
    """Runs a tool and returns what it says; what it says where it fails is shown."""
    it = subprocess.run([str(word) for word in words], stdin=subprocess.DEVNULL, stdout=subprocess.PIPE, stderr=subprocess.STDOUT, text=True, errors="replace", **how)
    if it.returncode:
        print(it.stdout[-6000:], end="", file=sys.stderr)
        stop(f"{Path(str(words[0])).name} {words[1] if len(words) > 1 else ''}: status {it.returncode}")
    return it.stdout


# ---- the module


def place_of(name):
    """Where a library of the repository stands built."""
    return TOP / "crates" / name / "out/rlib"


def is_of_ci(name):
    """Tells whether `rt ci` built a library, which leaves no stamp as `rt lib` does, and its sources are as they were then."""
    place, sources = place_of(name), [file for part in ("src", "specs", "proofs") for file in (TOP / "crates" / name / part).rglob("*")]
    if not (place / f"{name}.rlib").is_dir() or (place / "stamp").exists():
        return False
    return all(file.stat().st_mtime <= place.stat().st_ctime for file in sources)


def bitcode(room):
    """Proves the library, and returns what rattle hands to clang for it."""
    name = CRATE.name
    if all(map(is_of_ci, crates.below(name))):
        say(f"{name} is proved over what rt ci left")
    else:
        say(f"rt lib in crates/{name}")
        ran("rt", "lib", cwd=CRATE)
    bitcode, toolchain = room / "module.bc", room / "toolchain"
    (toolchain / "bin").mkdir(parents=True)
    (toolchain / "lib").symlink_to(kit() / "toolchain/lib")
    for tool in (kit() / "toolchain/bin").iterdir():
        if tool.name != "clang":
            (toolchain / "bin" / tool.name).symlink_to(tool)
    copies = f'for it; do case "$it" in *.bc) cp -- "$it" "{bitcode}";; esac; done\n'
    (toolchain / "bin/clang").write_text(f'#!/bin/sh\n{copies}exec "{kit()}/toolchain/bin/clang" "$@"\n')
    (toolchain / "bin/clang").chmod(0o755)
    # What a check kept, in a copy: another run may work in the crate.
    if (CRATE / "out/incremental").is_dir():
        shutil.copytree(CRATE / "out/incremental", room / "incremental")
    words = rattle.words("build", name, place_of, more=("--crate-type", "staticlib"))
    # Plain x86-64 has no shuffle by a vector, which clang would not take for another processor.
    words += ["--cpu", "x86-64", "--incremental", room / "incremental", "--jobs", "1", "--toolchain", toolchain, "-o", room / f"lib{name}.a"]
    say("rattle build")
    ran(kit() / "bin/rattle", *words, cwd=CRATE)
    return bitcode


def objects(room):
    """Compiles the bitcode and the two files of C for wasm64."""
    clang, code = kit() / "toolchain/bin/clang", room / "code.o"
    said = ran(clang, *FLAGS, "-O3", "-Wno-override-module", "-x", "ir", bitcode(room), "-o", code)
    # Each function of the bitcode names a processor of x86-64; clang says of each that it takes its own.
    other = [it for it in said.splitlines() if not it.endswith("is not a recognized processor for this target (ignoring processor)")]
    print(*other, sep="\n", end="\n" * bool(other), file=sys.stderr)
    for name in ("heap", "wide"):
        ran(clang, *FLAGS, *OF_C, PAGE / f"{name}.c", "-o", room / f"{name}.o")
    return [code, room / "heap.o", room / "wide.o"]


def declared():
    """The calls of btworld.h."""
    header = (TOP / "include/btworld.h").read_text().partition("#ifdef BTWORLD_HOOKED")[0]
    return re.findall(r"^(?:BTWORLD_SINCE_C99 )?(?:uint32_t|void) (btworld_\w+)\(", header, re.M)


def say_calls(code):
    """Says which calls a module exports, and which of btworld.h it lacks: of what these would tell the page says nothing."""
    has = [it for it in declared() if bytes([len(it)]) + it.encode() in code]
    lacks = [it for it in declared() if it not in has]
    print(f"the module has {len(has)} calls of btworld.h{', and lacks ' if lacks else ''}{', '.join(lacks)}", flush=True)


def module(room, made, most_pages=None):
    """Links the module, which imports nothing and has the calls of btworld.h, with addresses of 32 bits. Its calls take 64."""
    linker = room / "wasm-ld"
    if not linker.exists():
        # The kit's clang is also its linker, by the name under which it is called.
        linker.symlink_to(kit() / "toolchain/bin/clang")
    calls = declared()
    words = ["-mwasm64", "--no-entry", "--gc-sections", "--strip-all", "--fatal-warnings", "-z", "stack-size=1048576"]
    words += [f"--export-if-defined={call}" for call in calls] + ["--export=page_take", "--export=page_give"]
    words += [f"--max-memory={most_pages << 16}"] if most_pages else []
    wide, lowered = room / "module64.wasm", room / "module.wasm"
    ran(linker, *words, "-o", wide, *made)
    ran("wasm-opt", *[f"--enable-{it}" for it in LOWERED], "--memory64-lowering", wide, "-o", lowered)
    return lowered.read_bytes()


# ---- the page


def shared(name):
    """The text of a part that `btview page` has too: it stands in a source of page_text."""
    return re.search(r'r#"(.*)"#;\n\Z', (TEXTS / f"{name}.rt").read_text(), re.S)[1]


def unmarked(text):
    """A text without the few marks of Markdown that the documents here use."""
    return re.sub(r"\[([^\]]+)\]\([^)]*\)|`([^`]+)`", lambda it: it[1] or it[2], text)


def marked(text):
    text = re.sub(r"\[([^\]]+)\]\([^)]*\)", r"\1", html.escape(text, quote=False))
    return re.sub(r"`([^`]+)`", r"<code>\1</code>", text)


def about(name, readme):
    """The first paragraph on a level that has a section of its own, and how many frames its command plays."""
    frames = re.search(rf"play levels/{name}\.json .*--frames (\d+)", readme)
    section = re.search(rf"^## {name}\n(.*?)(?=^## |\Z)", readme, re.M | re.S)
    told = [it for it in (section[1].split("\n\n") if section else []) if it.strip() and not it.strip().startswith("./")]
    return {"frames": int(frames[1]) if frames else 20, "about": unmarked(told[0].strip()) if told else ""}


def samples():
    readme, found = (TOP / "levels/README.md").read_text(), []
    for level in sorted((TOP / "levels").glob("*.json"), key=lambda it: (it.stem != FIRST, it.stem)):
        beside = level.with_suffix(".script")
        found.append({"name": level.stem, "level": level.read_text(), "script": beside.read_text() if beside.exists() else "", **about(level.stem, readme)})
    return json.dumps(found).replace("<", "\\u003c")


def nodes():
    """The table of nodes of BEHAVIOUR.md."""
    section = (TOP / "docs/BEHAVIOUR.md").read_text().partition("## Nodes")[2].partition("\n## ")[0]
    rows = [line.strip("| ").split(" | ", 1) for line in section.splitlines() if line.startswith("| `")]
    return "<table>" + "".join(f"<tr><td>{marked(node).replace(', <code>', '<br><code>')}</td><td>{marked(text)}</td></tr>" for node, text in rows) + "</table>"


# The sections that the page has as its manual.
CHAPTERS = {"docs/BEHAVIOUR.md": ["World", "Intents", "Level file", "Script file", "Printed text", "Idioms"], "levels/README.md": ["patrol", "courier", "airlock"]}


def manual():
    """These sections as HTML: headings, paragraphs, lists, tables, and blocks of code are all that they use."""
    made = []
    for document, chapters in CHAPTERS.items():
        text = (TOP / document).read_text()
        for chapter in chapters:
            section = text.partition(f"\n## {chapter}\n")[2].partition("\n## ")[0]
            made.append(f"<h3>{chapter}</h3>")
            made += map(block_of, re.split(r"\n{2,}", section.strip("\n")))
    return "\n".join(made).replace("</pre>\n<pre>", "\n\n")


def rich(text):
    """A text with code, bold and slanted words as HTML. In code an asterisk is one; bold words may hold code."""
    codes = []
    held = re.sub(r"<code>.*?</code>", lambda it: codes.append(it[0]) or f"\0{len(codes) - 1}\0", marked(text), flags=re.S)
    held = re.sub(r"\*\*(.+?)\*\*", r"<b>\1</b>", held, flags=re.S)
    held = re.sub(r"\*([^*<>]+)\*", r"<i>\1</i>", held)
    return re.sub(r"\0(\d+)\0", lambda it: codes[int(it[1])], held)


def block_of(block):
    """A block of such a document: code, a heading, a table, a list or a paragraph."""
    lines = block.split("\n")
    if block.startswith("    "):
        return "<pre>" + "\n".join(html.escape(line[4:], quote=False) for line in lines) + "</pre>"
    if block.startswith("### "):
        return f"<h4>{rich(block[4:])}</h4>"
    if block.startswith("|"):
        rows = [line.strip("| ").split(" | ") for line in lines if not line.startswith("|-")]
        return "<table>" + "".join("<tr>" + "".join(f"<td>{rich(cell)}</td>" for cell in row) + "</tr>" for row in rows) + "</table>"
    if re.match(r"- |\d+\. ", block):
        kind = "ul" if block.startswith("-") else "ol"
        items = re.split(r"(?:^|\n)(?:- |\d+\. )", block)[1:]
        return f"<{kind}>" + "".join(f"<li>{rich(item)}</li>" for item in items) + f"</{kind}>"
    return f"<p>{rich(block)}</p>"


def filled(template, parts):
    """The text of a file of page/ with its parts put in. None of them may end the element in which it stands."""
    for name, text in parts.items():
        if re.search(r"</(script|style|template)|<!--", text):
            stop(f"the part {name} of {template} would end its element")
    return re.sub(r"@([A-Z]+)@", lambda it: parts[it[1]].strip("\n"), (PAGE / template).read_text())


def joined(names, suffix):
    return "\n".join((PAGE / f"{name}.{suffix}").read_text() for name in names)


def pages(code):
    """The texts of both files, of a module."""
    both = {"NODES": nodes(), "MODULE": base64.b64encode(gzip.compress(code, 9, mtime=0)).decode()}
    play = {
        "STYLE": shared("style").partition("<style>\n")[2],
        "CSS": joined(STYLES, "css"),
        "MANUAL": manual(),
        "SAMPLES": samples(),
        "MAP": shared("script_map"),
        "CORE": joined(CORE, "js"),
        "AGENTS": shared("script_agents"),
        "PAGE": joined(SCRIPTS, "js"),
    }
    live = {"CSS": joined(LIVE_STYLES, "css"), "PAGE": joined(LIVE_SCRIPTS, "js")}
    return {"play.html": filled("play.in.html", both | play), "live.html": filled("live.in.html", both | live)}


# The module in a page, packed and as letters.
MODULE = r'(?<=id="module">)[^<]*'


def module_of(text):
    return gzip.decompress(base64.b64decode(re.search(MODULE, text)[0]))


def unpacked(text):
    """A page with its module as it is: how well gzip packs it goes by the machine."""
    return re.sub(MODULE, lambda it: gzip.decompress(base64.b64decode(it[0])).hex(), text)


# ---- the commands


def build(room):
    """Returns the pages, and what their module was linked of."""
    made = objects(room)
    return pages(module(room, made)), made


def check(program):
    with tempfile.TemporaryDirectory(prefix="play_page-") as it:
        room = Path(it)
        texts, made = build(room)
        (room / "play.html").write_text(texts["play.html"])
        (room / "few.wasm").write_bytes(module(room, made, FEW_PAGES))
        others = [name for name, text in texts.items() if not (TOP / name).exists() or unpacked((TOP / name).read_text()) != unpacked(text)]
        say_calls(module_of(texts["play.html"]))
        for name in texts:
            print(f"{name} is not of these sources: scripts/pages/play_page.py builds it again" if name in others else f"{name} is of these sources", flush=True)
        tests = ("compare.js", room / "play.html", TOP, program), ("painting.js", room / "play.html", TOP), ("trees.js", room / "play.html", TOP), ("refused.js", room / "play.html", TOP, room / "few.wasm")
        failed = [name for name, *words in tests if subprocess.run(["node", PAGE / "tests" / name, *words]).returncode]
    if failed or others:
        stop(" ".join([*(f"other bytes in {name}" for name in others), *failed]))


def main():
    words = sys.argv[1:]
    if words == ["--keep-module"]:
        return write(pages(module_of((TOP / "play.html").read_text())))
    is_check = words[:1] == ["--check"]
    if len(words) > 2 or (words and not is_check):
        sys.exit(__doc__)
    program = Path(words[1]).resolve() if len(words) > 1 else PROGRAM
    missing = [*what_is_missing(is_check, program)]
    if missing:
        stop(f"missing: {', '.join(missing)}", 2)
    if is_check:
        return check(program)
    with tempfile.TemporaryDirectory(prefix="play_page-") as room:
        texts, _ = build(Path(room))
    write(texts)


def write(texts):
    say_calls(module_of(texts["play.html"]))
    for name, text in texts.items():
        (TOP / name).write_text(text)
        print(f"{len(text.encode())} bytes: {name}")


main()
