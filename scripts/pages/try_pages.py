#!/usr/bin/env python3
"""Uses play.html, and pages that `btview page` writes, without live.html and with it, in a headless browser as hands do.

    scripts/pages/try_pages.py BROWSER [FOLDER]      BROWSER is chromium or firefox; pictures of the pages are left in FOLDER

play.html and live.html are looked at as they stand: whether they are of these sources, scripts/pages/play_page.py --check says. Needed are node 18 or later,
chromium or firefox-esr (apt-get install), and what ./btworld and ./btview start. The exit status is 0 where all is well, 1 where
something is wrong, 2 where something is missing, which a line names."""
import shutil
import subprocess
import sys
import tempfile
from pathlib import Path

TOP = Path(__file__).resolve().parents[2]
TESTS = TOP / "page/tests"
PROGRAMS = {"chromium": "chromium", "firefox": "firefox-esr"}
FRAMES = 70


def ran(*words):
    return subprocess.run([TOP / words[0], *map(str, words[1:])], cwd=TOP, check=True, stdin=subprocess.DEVNULL, stdout=subprocess.PIPE).stdout


class Run:
    """A run of a sample level, in files of a folder: its frames, and its page without and with the drawn trees."""

    def __init__(self, room, level):
        script = TOP / f"levels/{level}.script"
        words = ["--script", script] if script.exists() else []
        log, self.frames, self.page, self.live = (Path(room, f"{level}.{it}") for it in ("log", "frames", "html", "live.html"))
        self.frames.write_bytes(ran("btworld", "play", f"levels/{level}.json", *words, "--frames", FRAMES, "--workers", 4, "--log", log))
        self.page.write_bytes(ran("btview", "page", f"levels/{level}.json", log, *words))
        self.live.write_bytes(ran("btview", "page", f"levels/{level}.json", log, *words, "--live", "live.html"))


def main():
    words = sys.argv[1:]
    if len(words) not in (1, 2) or words[0] not in PROGRAMS:
        sys.exit(__doc__)
    browser = words[0]
    missing = [it for it in ("node", PROGRAMS[browser]) if not shutil.which(it)]
    if missing:
        print(f"try_pages: missing: {', '.join(missing)}", file=sys.stderr)
        sys.exit(2)
    shots = [Path(it).resolve() for it in words[1:]]
    for folder in shots:
        folder.mkdir(parents=True, exist_ok=True)
    with tempfile.TemporaryDirectory(prefix="try_pages-") as it:
        warehouse, courier = Run(it, "warehouse"), Run(it, "courier")
        tests = [
            ("try_play.js", browser, TOP / "play.html", TOP, warehouse.frames, *shots),
            ("try_view.js", browser, warehouse.page, warehouse.frames, *shots),
            ("try_live.js", browser, TOP / "play.html", TOP, warehouse.live, courier.live, *shots),
        ]
        # What the page knows, it knows in any browser.
        if browser == "chromium":
            tests.append(("rules.js", browser, TOP / "play.html"))
        wrong = [name for name, *given in tests if subprocess.run(["node", TESTS / name, *given]).returncode]
    if wrong:
        sys.exit(f"try_pages: {browser}: wrong: {' '.join(wrong)}")


main()
