"""One sweep comes to one digest: on any number of processes, in parts, over a Dask cluster, interrupted and resumed, and where a process
is killed."""
import hashlib
import json
import os
import signal
import subprocess
import sys
import tempfile
import time
import unittest
from pathlib import Path

from btworld import Level, Report
from btworld.sweep import Plan, digest_of, play

HERE = Path(__file__).resolve().parent
LEVEL = HERE.parents[1] / "levels/airlock.json"
WORDS = [str(LEVEL), "--goal", "A . 1,1 [*]", "--frames", "60", "--games", "230"]
try:
    import distributed
except ImportError:
    distributed = None


SWEEP = [sys.executable, "-m", "btworld.sweep"]
PATHS = [str(HERE), *(os.path.abspath(it) for it in os.environ.get("PYTHONPATH", "").split(os.pathsep) if it)]
ENV = {**os.environ, "PYTHONPATH": os.pathsep.join(PATHS)}


def run(*words, **more):
    return subprocess.run([*SWEEP, *map(str, words)], capture_output=True, text=True, timeout=300, env={**ENV, **more})


def games_in(text):
    return [it for it in text.splitlines(True) if '"game"' in it]


class Sweeps(unittest.TestCase):
    @classmethod
    def setUpClass(cls):
        made = run(*WORDS, "--processes", 1)
        assert made.returncode == 0, made.stderr
        cls.whole, cls.digest = made.stdout, digest_of(games_in(made.stdout))

    def setUp(self):
        held = tempfile.TemporaryDirectory()
        self.addCleanup(held.cleanup)
        self.folder = Path(held.name)

    def look(self, made):
        self.assertEqual(made.returncode, 0, made.stderr)
        self.assertIn(f"digest of all {self.digest}", made.stderr + made.stdout)

    def test_processes(self):
        for count in (2, 3):
            made = run(*WORDS, "--processes", count, "--batch", 7)
            self.look(made)
            self.assertEqual(sorted(games_in(made.stdout)), sorted(games_in(self.whole)))

    def test_parts(self):
        parts = [self.folder / f"part-{k}" for k in (1, 2, 3)]
        for k, part in enumerate(parts, 1):
            part.write_text(run(*WORDS, "--chunk", f"{k}/3").stdout)
        self.look(run("--sum", *parts))
        joined = subprocess.run(["sort", "-u", *parts], capture_output=True, env={**os.environ, "LC_ALL": "C"}).stdout.decode()
        self.assertEqual(joined, self.whole)
        self.assertEqual(hashlib.sha256("".join(games_in(joined)).encode()).hexdigest()[:16], self.digest)
        made = run("--sum", parts[0], parts[2])
        self.assertIn("77 games are missing, the first is 1", made.stderr)
        other = parts[0].read_text()
        parts[0].write_text(other.replace('"frames": 42', '"frames": 43'))
        self.assertIn("has two results", run("--sum", *parts, parts[0].rename(self.folder / "x"), *self.again(other)).stderr)

    def again(self, text):
        (self.folder / "part-1").write_text(text)
        return [self.folder / "part-1"]

    def test_resumed(self):
        for cut in (0, 1, 50, len(self.whole.splitlines(True)[0]), 2000, len(self.whole) - 1, len(self.whole)):
            out = self.folder / f"cut-{cut}"
            out.write_text(self.whole[:cut])
            self.look(run(*WORDS, "--processes", 1, "--out", out))
            self.assertEqual("".join(sorted(out.read_text().splitlines(True))), self.whole)
        made = run(*WORDS, "--seed", 1, "--out", out)
        self.assertIn("has the results of another sweep", made.stderr)
        self.assertEqual(made.returncode, 2)

    def test_killed_process(self):
        mark, out = self.folder / "mark", self.folder / "out"
        mark.touch()
        made = run(*WORDS, "--policy", "policies:dies", "--processes", 2, "--out", out, BTWORLD_TEST_MARK=str(mark))
        self.assertIn("a process was killed", made.stderr)
        self.look(made)
        self.assertFalse(mark.exists())

    def test_killed_whole(self):
        """All of it is killed while it plays, and resumed."""
        out = self.folder / "out"
        words = [*WORDS, "--policy", "policies:slow", "--processes", "1", "--batch", "5", "--out", str(out)]
        made = subprocess.Popen([*SWEEP, *words], env=ENV, stderr=subprocess.DEVNULL)
        until = time.monotonic() + 60
        while time.monotonic() < until and not (out.exists() and len(games_in(out.read_text())) > 20):
            time.sleep(0.02)
        made.kill()
        made.wait()
        self.assertTrue(20 < len(games_in(out.read_text())) < 230)
        self.look(run(*words))

    def test_interrupted(self):
        """Ctrl-C ends it soon, and the same command resumes it."""
        # What a shell starts in the background ignores Ctrl-C, and so would all that it starts.
        self.addCleanup(signal.signal, signal.SIGINT, signal.signal(signal.SIGINT, signal.default_int_handler))
        out = self.folder / "out"
        words = [*WORDS, "--policy", "policies:slow", "--processes", "2", "--batch", "5", "--out", str(out)]
        made = subprocess.Popen([*SWEEP, *words], env=ENV, stderr=subprocess.PIPE, text=True)
        until = time.monotonic() + 60
        while time.monotonic() < until and not (out.exists() and len(games_in(out.read_text())) > 20):
            time.sleep(0.02)
        made.send_signal(signal.SIGINT)
        told = made.communicate(timeout=60)[1]
        self.assertEqual(made.returncode, 130, told)
        self.assertIn("the same command resumes it", told)
        self.assertNotIn("Traceback", told)
        self.assertTrue(20 < len(games_in(out.read_text())) < 230)
        self.look(run(*words))

    def test_odd_games(self):
        made = run(*WORDS, "--processes", 1, "--odd", "missed", "--reports", self.folder / "missed", "--check")
        self.assertEqual(made.returncode, 0, made.stderr)
        odd = [it for it in map(json.loads, games_in(made.stdout)) if "odd" in it]
        self.assertEqual({it["odd"] for it in odd}, {"missed"})
        self.assertEqual(len(odd), sum(not it["goal"] for it in map(json.loads, games_in(made.stdout))))
        reports = sorted((self.folder / "missed").iterdir())
        self.assertEqual([it.name for it in reports], sorted(f"game-{it['game']}.json" for it in odd))
        for path in reports[:5]:
            self.assertEqual(Report.read(path.read_text()).difference(), "")
        made = run("--again", *reports[:2])
        self.assertEqual((made.returncode, made.stdout.count("the same here"), made.stderr), (0, 2, ""))
        made = run("--again", LEVEL)
        self.assertEqual((made.returncode, made.stderr.startswith(f"{LEVEL} is no report")), (2, True))
        reports[0].write_text(Report.read(reports[0].read_text())._replace(digest="0" * 16).text())
        self.assertEqual(run("--again", *reports[:2]).returncode, 1)
        made = run(*WORDS, "--processes", 2, "--odd", "policies:even")
        odd = {it["game"] for it in map(json.loads, games_in(made.stdout)) if "odd" in it}
        self.assertEqual(odd, {it["game"] for it in map(json.loads, games_in(self.whole)) if int(it["digest"], 16) % 2 == 0})

    def test_policies(self):
        plan = Plan(Level(LEVEL), "ab", 0, 5, 60, policy="policies:greedy")
        self.assertEqual(play(plan, range(5))[1:], [it for it in play(plan, range(1, 5))])
        self.assertEqual(len({json.loads(it)["digest"] for it in play(plan._replace(policy="idle"), range(5))}), 1)
        self.assertEqual(len({json.loads(it)["digest"] for it in play(plan._replace(policy="random:0.5"), range(5))}), 4)

    def test_refusals(self):
        bad = self.folder / "bad.json"
        bad.write_text("{}")
        self.assertEqual((run(bad).returncode, run(bad).stderr), (2, "level: shape\n"))
        self.assertEqual(run().returncode, 2)
        for name in ("--policy", "--odd"):
            for function in ("x", "policies:x", "no_module:x", "random:x"):
                made = run(LEVEL, name, function)
                self.assertEqual((made.returncode, made.stderr.count("\n")), (2, 1), made.stderr)
        for words in (["--chunk", "0/3"], ["--chunk", "4/3"], ["--games", "0"], ["--processes", "0"], ["--first", "-1"], ["--goal", "["]):
            self.assertEqual(run(LEVEL, *words).returncode, 2, words)

    @unittest.skipUnless(distributed, "distributed isn't installed")
    def test_dask(self):
        """A scheduler and two workers, each a process of its own, of which one is killed by -9 while it plays."""
        env = {**ENV, "DASK_DISTRIBUTED__COMM__TIMEOUTS__CONNECT": "20s"}
        told = self.folder / "scheduler.json"

        def start(name, *words):
            log = open(self.folder / f"{name}.log", "w")
            self.addCleanup(log.close)
            made = subprocess.Popen([sys.executable, "-m", f"distributed.cli.dask_{name.rstrip('12')}", *words], cwd=self.folder, env=env,
                                    stdout=log, stderr=log)  # fmt: skip
            self.addCleanup(made.wait)
            self.addCleanup(made.kill)
            return made

        start("scheduler", "--host", "127.0.0.1", "--port", "0", "--scheduler-file", str(told), "--no-dashboard", "--no-show")
        until = time.monotonic() + 60
        while time.monotonic() < until and not told.exists():
            time.sleep(0.1)
        time.sleep(0.2)
        address = json.loads(told.read_text())["address"]
        first = start("worker1", "--nthreads", "1", "--no-nanny", "--no-dashboard", address)
        start("worker2", "--nthreads", "1", "--no-nanny", "--no-dashboard", address)
        self.look(run(*WORDS, "--scheduler", address))
        self.look(run(*WORDS, "--scheduler", told))
        out = self.folder / "out"
        words = [*WORDS, "--policy", "policies:slow", "--batch", "5", "--scheduler", address, "--out", str(out)]
        sweep = subprocess.Popen([*SWEEP, *words], env=env, stderr=subprocess.PIPE, text=True)
        while time.monotonic() < until and not (out.exists() and len(games_in(out.read_text())) > 20):
            time.sleep(0.02)
        first.send_signal(signal.SIGKILL)
        seen = len(games_in(out.read_text()))
        stderr = sweep.communicate(timeout=200)[1]
        self.assertTrue(20 < seen < 230, seen)
        self.assertIn(f"digest of all {self.digest}", stderr)
        self.assertEqual(first.wait(), -signal.SIGKILL)
        print(f"worker killed by -9 after {seen} of 230 games: digest of all {self.digest} as on one process", file=sys.stderr)


if __name__ == "__main__":
    unittest.main()
