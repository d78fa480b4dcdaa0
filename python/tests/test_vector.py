"""Many games at once: Games and VectorSignalEnv do what as many single ones do, or say which library they need."""
import random
import subprocess
import sys
import unittest
from pathlib import Path

from conforming import Rules, look_at_space

from btworld import BtworldError, Level, LibraryTooOldError
from btworld import _library as library
from btworld.environments import SignalEnv, VectorSignalEnv
from btworld.games import Games

try:
    import numpy
except ImportError:
    numpy = None

HERE = Path(__file__).resolve().parent
LEVELS = sorted((HERE.parents[1] / "levels").glob("*.json"))
AIRLOCK = Level(HERE.parents[1] / "levels/airlock.json")
VAULT = "A . 1,1 [*]"
HAS_CALLS = library.exports("step_all") and library.exports("look_all")


class Refused(unittest.TestCase):
    def test_older_libraries_and_missing_numpy(self):
        """What can't be had says why."""
        if not HAS_CALLS:
            for make in (lambda: Games(AIRLOCK, 2), lambda: VectorSignalEnv(AIRLOCK, 2)):
                with self.assertRaisesRegex(LibraryTooOldError, "need version 2.1 of the library; .* is version 2.0.0"):
                    make()
        code = "import sys; sys.modules['numpy'] = None; import btworld.games; btworld.games.Games('{}', 1)"
        made = subprocess.run([sys.executable, "-c", code], stdout=subprocess.PIPE, stderr=subprocess.PIPE, text=True)
        self.assertIn("many games at once need numpy" if HAS_CALLS else "many games at once need version 2.1", made.stderr)


@unittest.skipUnless(numpy and HAS_CALLS, "numpy, or version 2.1 of the library, isn't there")
class Vectors(unittest.TestCase):
    def test_games_are_so_many_games(self):
        for path in LEVELS:
            for threads in (1, 3):
                level, dice = Level(path), random.Random(path.name)
                games, single = Games(level, 7, threads), [level.open() for _ in range(7)]
                for turn in range(40):
                    look = games.look_all()
                    for at, it in enumerate(single):
                        cells = [[(chr(mark), item, None if agent == 255 else agent) for mark, item, agent in row] for row in look.cells[at].tolist()]
                        self.assertEqual(cells, [[tuple(cell) for cell in row] for row in it.cells()])
                        agents = [(x, y, carrying, None if status == 3 else status) for x, y, carrying, status in look.agents[at].tolist()]
                        self.assertEqual(agents, [it[1:] for it in it.agents])
                    masks = [dice.randrange(8) for _ in single]
                    games.step_all(masks)
                    for mask, it in zip(masks, single):
                        it.step(mask)
                    self.assertEqual([games.game(at) for at in range(7)], single)
                    if turn == 20:
                        games.reset([2, 5])
                        single[2], single[5] = level.open(), level.open()
                games.step_all("ab")
                state = games.game(3).state()
                games.reset(state=state)
                self.assertEqual({games.game(at).state() for at in range(7)}, {state})
                self.assertFalse(games.game(0).has_whole_script)
                games.close()

    def test_games_refuse(self):
        games = Games(AIRLOCK, 3)
        for wrong in ([1, 2], [[1, 2, 3]], [0, 0, 1 << 26]):
            self.assertRaises(ValueError, games.step_all, wrong)
        for how in ({"count": 0}, {"count": 2, "threads": 0}):
            self.assertRaises(ValueError, lambda: Games(AIRLOCK, **how))
        games.close()
        self.assertRaises(BtworldError, games.step_all, [0, 0, 0])
        self.assertRaises(BtworldError, games.look_all)

    def test_episodes_are_those_of_single_environments(self):
        """Each episode shows what SignalEnv shows under the same actions, and begins again after its end."""
        for actions in ("bits", "number"):
            for path in LEVELS:
                level = Level(path)
                letters, goal = level.signals or "a", "A S .*|B F .*"
                how = {"letters": letters, "goal": goal, "frames": 15, "actions": actions}
                vector, single = VectorSignalEnv(level, 5, **how), [SignalEnv(level, **how) for _ in range(5)]
                observations, infos = vector.reset(seed=1)
                for at, it in enumerate(single):
                    self.assertTrue((observations[at] == it.reset()[0]).all())
                ended, ends = [False] * 5, 0
                vector.action_space.seed(3)
                for _ in range(50):
                    chosen = vector.action_space.sample()
                    observations, rewards, terminations, truncations, infos = vector.step(chosen)
                    for at, it in enumerate(single):
                        if ended[at]:
                            observation, info = it.reset()
                            wanted = (0.0, False, False)
                        else:
                            observation, *wanted, info = it.step(chosen[at])
                        self.assertTrue((observations[at] == observation).all(), path)
                        self.assertEqual((rewards[at], terminations[at], truncations[at]), tuple(wanted))
                        self.assertEqual((infos["frame"][at], infos["goal"][at]), (info["frame"], info["goal"]))
                        ended[at] = wanted[1] or wanted[2]
                        ends += ended[at]
                    self.assertEqual([vector.game(at) for at in range(5)], [it.game for it in single])
                self.assertGreater(ends, 5)
                vector.close()
                vector.close()

    def test_states_goals_and_rewards_of_the_caller(self):
        start = AIRLOCK.open()
        start.run(["ab"] * 6)
        arrived = lambda view: view.agents["x"][:, 0] > 6
        moved = lambda before, now, at_goal: now.agents["x"][:, 0].astype(float) - before.agents["x"][:, 0]
        vector = VectorSignalEnv(AIRLOCK, 4, goal=arrived, reward=moved, frames=30, threads=2)
        observations, infos = vector.reset(options={"state": start.state()})
        self.assertEqual((infos["frame"].tolist(), infos["signals"].tolist()), ([6] * 4, [3] * 4))
        env = SignalEnv(AIRLOCK)
        self.assertTrue((observations[2] == env.reset(options={"state": start.state()})[0]).all())
        sums = numpy.zeros(4)
        for _ in range(20):
            _, rewards, terminations, _, infos = vector.step(numpy.ones((4, 2), "i1"))
            sums += rewards
            if terminations.all():
                break
        self.assertTrue(terminations.all())
        self.assertTrue((sums == vector.game(0).agents[0].x - start.agents[0].x).all())
        _, rewards, terminations, truncations, infos = vector.step(numpy.ones((4, 2), "i1"))
        self.assertEqual((infos["frame"].tolist(), rewards.tolist()), ([6] * 4, [0.0] * 4))
        self.assertFalse(terminations.any() or truncations.any())

    def test_spaces_and_refusals(self):
        for actions in ("bits", "number"):
            vector, rule = VectorSignalEnv(AIRLOCK, 3, goal=VAULT, actions=actions), Rules()
            for space, what in ((vector.single_action_space, "action"), (vector.single_observation_space, "observation")):
                look_at_space(rule, space, what)
            self.assertEqual(rule.broken, [])
            self.assertTrue(vector.action_space.contains(vector.action_space.sample()))
            self.assertRaises(RuntimeError, vector.step, vector.action_space.sample())
            observations, _ = vector.reset()
            self.assertTrue(vector.observation_space.contains(observations))
            for wrong in ([0], [[0, 0]], [[0, 2]] * 3, [-1] * 3, [4] * 3, [0.5] * 3, [[0.0, 0.0]] * 3):
                self.assertRaises(ValueError, vector.step, wrong)
            kept = observations.copy()
            vector.step(vector.action_space.sample())
            self.assertTrue((observations == kept).all())
            self.assertEqual((vector.num_envs, vector.unwrapped), (3, vector))
        for how in ({"letters": ""}, {"frames": 0}, {"actions": "x"}):
            self.assertRaises(ValueError, lambda: VectorSignalEnv(AIRLOCK, 3, **how))

    def test_over_a_stand_in_of_gymnasium(self):
        """All of this again, where gymnasium isn't installed."""
        try:
            import gymnasium  # noqa: F401
        except ImportError:
            code = f"import sys; sys.path.insert(0, {str(HERE / 'stand_in')!r})\nimport unittest\nunittest.main('test_vector')"
            made = subprocess.run([sys.executable, "-c", code], cwd=HERE, stdout=subprocess.PIPE, stderr=subprocess.PIPE, text=True)
            self.assertEqual(made.returncode, 0, made.stderr)
            return
        self.assertTrue(issubclass(VectorSignalEnv, gymnasium.vector.VectorEnv))


if __name__ == "__main__":
    unittest.main()
