#!/usr/bin/env python3
"""The finder for Python: what it answers, refuses and writes."""
import io
import json
import os
import subprocess
import sys
import tempfile
import unittest
from pathlib import Path

TOP = Path(__file__).resolve().parents[2]
sys.path.insert(0, str(TOP / "python/src"))
import btjobs  # noqa: E402
from btjobs._page import page_of_finding  # noqa: E402


class Counting(btjobs.Game):
    """Counts what thought before it: depends on the order."""
    def __init__(self, count=True):
        self.count, self.counts = 0, count

    def start(self):
        return 0

    def think(self, v, answers):
        self.count += 1
        return self.count if self.counts else v.agent

    def turn(self, start, thoughts):
        return start.world + thoughts[0]


N = btjobs.Settings(frames=4, agents=9)


class Tests(unittest.TestCase):
    def test_a_difference_is_named_and_its_log_plays_again(self):
        f = btjobs.explore(Counting, N)
        self.assertEqual((f.verdict, str(f.job), str(f.late), f.neighbours, f.out_of_order), ("order", "think 1 0", "think 1 0", True, 1))
        self.assertEqual((f.agreeing_value, f.differing_value), ("1", "2"))
        text = io.StringIO()
        btjobs.write_log(text, f.settings, f.workers, f.differing_log, str(f))
        text.seek(0)
        n, workers, log = btjobs.read_log(text)
        self.assertEqual((n, workers, log), (N, 1, f.differing_log))
        job, says = btjobs.compare(Counting, n, workers, log)
        self.assertEqual((job, says), (f.job, "think 1 0 comes to something else than in the plain order\n    2\n  where it came to\n    1"))
        self.assertEqual(json.loads(json.dumps(f.json()))["early"]["kind"], "think")
        self.assertIn(f'"marks": [{{"name": "{f.early}"', page_of_finding(f))

    def test_clean_games_agree(self):
        self.assertEqual(str(btjobs.explore(lambda: Counting(False), N, 40, runs=3)), "40 orders agree, and 3 runs on threads")
        for settings in (btjobs.Settings(frames=0), btjobs.Settings(frames=3, agents=0, bands=2), btjobs.Settings(frames=3, agents=2, slots=1, started=2, running=1)):
            self.assertTrue(btjobs.explore(lambda: btjobs.Game(), settings, 8).agrees())

    def test_the_time_limit_ends_it(self):
        f = btjobs.explore(lambda: Counting(False), N, 10**9, seconds=0.3)
        self.assertTrue(f.agrees() and f.out_of_time and 0 < f.orders < 10**6)

    def test_a_run_on_threads_shows_the_same(self):
        one = btjobs.run(Counting(False), N, 1)
        for threads in (2, 4, 16):
            self.assertEqual(btjobs.run(Counting(False), N, threads).came, one.came)

    def test_what_a_job_raises_comes_out(self):
        class Raising(Counting):
            def think(self, v, answers):
                raise KeyError("seven")
        for call in (lambda: btjobs.explore(Raising, N), lambda: btjobs.run(Raising(), N, 3)):
            with self.assertRaisesRegex(KeyError, "seven"):
                call()

    def test_wrong_settings_and_logs_are_refused(self):
        class Asking(btjobs.Game):
            def think(self, v, answers):
                return btjobs.Ask(0)

            def answer(self, v, question):
                return 0
        with self.assertRaisesRegex(btjobs.Error, "limits"):
            btjobs.explore(Counting, btjobs.Settings(slots=17))
        with self.assertRaisesRegex(btjobs.Error, "most_questions"):
            btjobs.explore(Asking, btjobs.Settings(most_questions=2))
        head = "btjobs log 1 frames 2 workers 1 small 64 large 64 slots 3 agents 1 bands 0 questions 0 season 600\n"
        self.assertEqual(btjobs.read_log(io.StringIO(head + "# stop\nstop\n"))[2], [(7, 0, (0, 0, 0, 0))])
        for line in ("", "btworld log 2", "btjobs log 1 frames 2", "emit", "0 start think 1", "0 starts think 1 1", "0 start path 1 1", "0 start logic 1 2", "stopped", "0 emit logic 1"):
            for text in line + "\n", head + line + "\n":
                with self.assertRaisesRegex(btjobs.Error, f"not a line of a btjobs log: {line}$"):
                    btjobs.read_log(io.StringIO(text))

    def test_the_program_has_a_status(self):
        with tempfile.TemporaryDirectory() as room:
            def status(*words):
                command = [sys.executable, str(TOP / "examples/btjobs/epidemic.py"), *words]
                ran = subprocess.run(command, cwd=room, stdout=subprocess.PIPE, stderr=subprocess.PIPE, text=True, env={**os.environ, "PYTHONDONTWRITEBYTECODE": "1"})
                return ran.returncode, ran.stdout, ran.stderr
            self.assertEqual(status("--seeds", "3"), (0, "3 orders agree\n", ""))
            code, out, _ = status("random", "--json", "--page", "page.html")
            self.assertEqual((code, json.loads(out)["verdict"], json.loads(out)["log"]), (1, "order", "btjobs-order.log"))
            self.assertTrue((Path(room) / "page.html").exists())
            self.assertEqual(status("random", "--replay", "btjobs-order.log")[0], 1)
            self.assertEqual(status("--replay", "btjobs-order.log")[0], 0)
            self.assertEqual(status("--replay", "nothing")[0], 2)
            self.assertEqual(status("--what")[0], 2)


if __name__ == "__main__":
    unittest.main()
