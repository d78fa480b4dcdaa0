"""SignalEnv and SignalsEnv keep each rule of Gymnasium's and PettingZoo's checks: over these packages where they are installed, over
stand-ins of them, and without them and without numpy. Environments that break a rule are found."""
import copy
import os
import pickle
import random
import subprocess
import sys
import unittest
from pathlib import Path

from conforming import gymnasium_rules, numpy, pettingzoo_rules

from btworld import Level, StateError
from btworld.environments import PLANES, SignalEnv, SignalsEnv, register

HERE = Path(__file__).resolve().parent
LEVELS = sorted((HERE.parents[1] / "levels").glob("*.json"))
AIRLOCK = Level(HERE.parents[1] / "levels/airlock.json")
VAULT = "A . 1,1 [*]"
try:
    import gymnasium
    import pettingzoo
except ImportError:
    gymnasium = pettingzoo = None


def single(render_mode=None, kind=SignalEnv, **how):
    return kind(AIRLOCK, goal=VAULT, frames=60, render_mode=render_mode, **how)


def several(render_mode=None, kind=SignalsEnv, **how):
    return kind(AIRLOCK, goal=VAULT, frames=60, render_mode=render_mode, **how)


def rows_of(planes):
    """The rows of the frame's text, made of the planes."""
    wall, shut, opened, place, item, agent, _, _ = planes.tolist()
    rows = []
    for y in range(len(wall)):
        row = ""
        for x in range(len(wall[0])):
            if wall[y][x]:
                row += "#"
            elif agent[y][x]:
                row += chr(64 + agent[y][x])
            elif item[y][x]:
                row += "*"
            elif shut[y][x]:
                row += chr(96 + shut[y][x])
            else:
                row += "/" if opened[y][x] else str(place[y][x] - 1) if place[y][x] else "."
        rows.append(row)
    return rows


class Rules(unittest.TestCase):
    def test_gymnasium(self):
        for how in ({}, {"actions": "number"}, {"observe": "all"}):
            rules = gymnasium_rules(lambda render_mode: single(render_mode, **how), gymnasium and gymnasium.Env)
            self.assertEqual(rules.broken, [])
            self.assertGreater(len(rules.seen), 30)

    def test_pettingzoo(self):
        for how in ({}, {"observe": "all"}):
            rules = pettingzoo_rules(lambda render_mode: several(render_mode, **how), pettingzoo and pettingzoo.ParallelEnv)
            self.assertEqual(rules.broken, [])
            self.assertGreater(len(rules.seen), 20)

    def test_real_checks(self):
        try:
            from gymnasium.utils.env_checker import check_env
            from pettingzoo.test import parallel_api_test
        except ImportError:
            self.skipTest("gymnasium and pettingzoo aren't installed")
        check_env(single())
        parallel_api_test(several(), 300)

    def test_wrong_ones_are_found(self):
        class FirstFrame(SignalEnv):
            def reset(self, *, seed=None, options=None):
                return super().reset(options=options)

        class Pair(SignalEnv):
            def step(self, action):
                return super().step(action)[:4]

        class Shared(SignalEnv):
            def reset(self, **how):
                seen, info = super().reset(**how)
                self.kept = seen
                return seen, info

            def step(self, action):
                seen, *rest = super().step(action)
                self.kept[...] = seen
                return (self.kept, *rest)

        class Words(SignalEnv):
            def render(self):
                return [super().render()]

        class Endless(SignalEnv):
            def step(self, action):
                seen, reward, _, _, info = super().step(action)
                return seen, reward, False, False, info

        class Truths(SignalEnv):
            def step(self, action):
                seen, reward, over, cut, info = super().step(action)
                return seen, reward, int(over), cut, info

        wanted = {
            FirstFrame: "a seed makes the generator", Words: "ansi answers a text", Endless: "an episode ends",
            Truths: "terminated is a truth",
        }  # fmt: skip
        if numpy:
            wanted[Shared] = "an observation stays as it was when it goes on"
        for kind, words in wanted.items():
            try:
                self.assertIn(words, gymnasium_rules(lambda render_mode: single(render_mode, kind)).broken)
            except AttributeError:
                self.assertIs(kind, FirstFrame)  # no generator to look at
        with self.assertRaises(ValueError):
            gymnasium_rules(lambda render_mode: single(render_mode, Pair))

        class Revived(SignalsEnv):
            def step(self, actions):
                answer = super().step(actions)
                self.agents = list(self.possible_agents)
                return answer

        class Fresh(SignalsEnv):
            def action_space(self, agent):
                return copy.copy(self.action_spaces[agent])

        for kind, words in {Revived: "agents are those that live", Fresh: "action_space answers the same object each time"}.items():
            self.assertIn(words, pettingzoo_rules(lambda render_mode: several(render_mode, kind)).broken)

    def test_with_and_without_packages(self):
        """All of this again over the stand-ins, and without numpy."""
        if os.environ.get("BTWORLD_TESTS_AGAIN"):
            return
        kinds = [("none", "import sys; sys.modules['numpy'] = sys.modules['gymnasium'] = sys.modules['pettingzoo'] = None")]
        if numpy and not gymnasium:
            kinds.append(("stand-ins", f"import sys; sys.path.insert(0, {str(HERE / 'stand_in')!r})"))
        for name, begin in kinds:
            code = f"{begin}\nimport unittest\nunittest.main('test_environments')"
            made = subprocess.run([sys.executable, "-c", code], cwd=HERE, capture_output=True, text=True,
                                  env={**os.environ, "BTWORLD_TESTS_AGAIN": name})  # fmt: skip
            self.assertEqual(made.returncode, 0, f"{name}: {made.stderr}")


class Worlds(unittest.TestCase):
    def test_planes_show_the_frames(self):
        self.assertTrue(LEVELS)
        for path in LEVELS:
            level, dice = Level(path), random.Random(path.name)
            env = SignalEnv(level, level.signals or "a", frames=99)
            seen, _ = env.reset()
            for _ in range(60):
                self.assertEqual(seen.shape[0], len(PLANES))
                self.assertEqual(rows_of(seen), env.game.rows())
                view = env.game.view()
                for it in view.agents:
                    self.assertEqual(seen[6, it.y, it.x], it.carrying)
                    self.assertEqual(seen[7, it.y, it.x], 0 if it.answer is None else it.answer + 1)
                    self.assertEqual(seen[4, it.y, it.x], env.game.cell(it.x, it.y).item)
                seen, *_ = env.step([dice.random() < 0.3 for _ in env.letters])

    def test_all_is_all(self):
        """Games that look alike by `observe="all"` are in the same state, but for the frame."""
        for path in LEVELS:
            level, known = Level(path), {}
            env, dice = SignalEnv(level, level.signals or "a", frames=99, observe="all"), random.Random(2)
            for _ in range(4):
                seen, _ = env.reset()
                for _ in range(60):
                    key = repr([seen[it].tolist() for it in ("planes", "signals", "memory")])
                    _, _, _, *state = env.game.state().splitlines()
                    self.assertEqual(known.setdefault(key, state), state)
                    seen, *_ = env.step([dice.random() < 0.3 for _ in env.letters])

    def test_goal_and_options(self):
        passed = lambda before, now, won: now.frame - before.frame
        env = SignalEnv(AIRLOCK, goal=lambda game: game.agents[0].carrying, frames=60, reward=passed)
        env.reset()
        state, won = None, False
        for frame in range(1, 61):
            signals = {"a": 3 <= frame < 6, "b": 10 <= frame < 18}
            _, reward, won, cut, info = env.step([signals["a"], signals["b"]])
            self.assertEqual(reward, 1.0)
            state = env.game.state() if frame == 9 else state
            if won:
                break
        self.assertTrue(won and info["goal"] and not cut)
        _, info = env.reset(options={"state": state})
        self.assertEqual(info["frame"], 9)
        with self.assertRaises(StateError):
            env.reset(options={"state": "x"})
        self.assertEqual(env.game.frame, 9)
        for _ in range(10):
            _, _, won, _, info = env.step([0, 1])
            if won:
                break
        self.assertTrue(won)

    def test_copies_go_on_apart(self):
        env = single()
        env.reset()
        env.step([1, 0])
        for copied in (copy.deepcopy(env), pickle.loads(pickle.dumps(env))):
            self.assertEqual(copied.game, env.game)
            copied.step([0, 1])
            self.assertNotEqual(copied.game, env.game)
            self.assertEqual(env.game.frame, 1)

    def test_refusals(self):
        wrong = {"letters": ["", "aa", "A"], "frames": [0], "render_mode": ["human"], "observe": ["x"], "actions": ["x"]}
        for name, values in wrong.items():
            for it in values:
                with self.assertRaises(ValueError, msg=f"{name}={it!r}"):
                    SignalEnv(AIRLOCK, **{name: it})
        env = single()
        with self.assertRaises(RuntimeError):
            env.step([0, 0])
        env.reset()
        for action in ([0], [0, 1, 0], [0, 2], [0, -1]):
            with self.assertRaises(ValueError):
                env.step(action)
        env = single(actions="number")
        env.reset()
        for action in (4, -1, 1.5, "a"):
            with self.assertRaises(ValueError):
                env.step(action)
        env = several()
        env.reset()
        for actions in ({}, {"a": 0}, {"a": 0, "b": 2}, {"a": 0, "b": 0, "c": 0}):
            with self.assertRaises(ValueError):
                env.step(actions)
        self.assertEqual(env.game.frame, 0)

    def test_registered(self):
        if not gymnasium:
            self.skipTest("gymnasium isn't installed")
        register()
        env = gymnasium.make("btworld/Signals-v0", level=AIRLOCK, goal=VAULT)
        self.assertIsInstance(env.unwrapped, SignalEnv)


if __name__ == "__main__":
    unittest.main()
