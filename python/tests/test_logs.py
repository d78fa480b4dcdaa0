"""Logs: replayed, completed and refused."""
import unittest
from pathlib import Path

from btworld import Game, Level, LevelError, LogError, ScriptError, Status, complete, log_frames, replay

TOP = Path(__file__).resolve().parents[2]
LEVELS = sorted((TOP / "levels").glob("*.json"))
HEAD = "btworld log 2 frames {} workers 3 small 8 large 8 slots 3\n"


class Logs(unittest.TestCase):
    def test_logs_show_the_frames_of_a_game(self):
        for path in LEVELS:
            script = path.with_suffix(".script")
            lines = script.read_bytes() if script.exists() else b""
            game, frames = Game.open(path, lines), []
            for _ in range(12):
                game.step_script()
                frames.append(game.text())
            whole = complete(path, HEAD.format(12), lines)
            self.assertEqual(replay(path, whole, lines), ("".join(frames), 12, True))
            self.assertEqual(log_frames(path, whole, lines), (12, True))
            cut = "".join(whole.splitlines(True)[: whole.count("\n") // 2])
            shown = replay(Level(path), cut, lines)
            self.assertEqual((shown.text, shown.is_complete), ("".join(frames[: shown.frames]), False))
            self.assertTrue(0 < shown.frames == cut.count("\nemit ") < 12)
            self.assertEqual(complete(path, cut, lines), whole)

    def test_refusals_say_why(self):
        level, head = LEVELS[0], HEAD.format(2)
        for call in (replay, log_frames, complete):
            for log, status in (("x\n", Status.LOG_HEAD), (head + "x\n", Status.LOG_LINE), (head + "emit 1\n", Status.LOG_ILLEGAL)):
                with self.assertRaises(LogError) as told:
                    call(level, log)
                self.assertEqual(told.exception.status, status)
            with self.assertRaisesRegex(LevelError, "^level: shape$"):
                call("{}", head)
            with self.assertRaisesRegex(ScriptError, "^script: line 1$"):
                call(level, head, "x\n")
        for call in (replay, log_frames):
            with self.assertRaisesRegex(LogError, "^log: illegal event 0$"):
                call(level, head + "emit 1\n")


if __name__ == "__main__":
    unittest.main()
