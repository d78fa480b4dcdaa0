"""Level, Game and Report: that they show what the library tells, and that errors say why."""
import copy
import ctypes
import gc
import json
import pickle
import random
import re
import subprocess
import sys
import threading
import unittest
from pathlib import Path

import btworld
from btworld import (
    Answer, BtworldError, Deed, Direction, Game, Level, LevelError, LibraryTooOldError, Report, ScriptError, StateError, Status,
)  # fmt: skip
from btworld import _library as library

try:
    import numpy
except ImportError:
    numpy = None

TOP = Path(__file__).resolve().parents[2]
LEVELS = sorted((TOP / "levels").glob("*.json"))
WAREHOUSE = TOP / "levels/warehouse.json"
SCRIPT = WAREHOUSE.with_suffix(".script")
DOOR = {"map": ["Aa0"], "agents": ["t"], "trees": {"t": ["move", "0"]}}
PLACELESS = {"map": ["A0"], "agents": ["t"], "trees": {"t": ["move", "1"]}}


class Number:
    """An integer that is no int, as numpy's are."""

    def __index__(self):
        return 3


class Levels(unittest.TestCase):
    def test_they_are_values(self):
        level = Level(WAREHOUSE)
        self.assertEqual(level, Level(WAREHOUSE.read_text()))
        self.assertEqual(len({level, Level(WAREHOUSE), copy.deepcopy(level), pickle.loads(pickle.dumps(level)), Level(level)}), 1)
        self.assertEqual((level.signals, level.map), ("ab", (14, 8, 4)))
        self.assertEqual(level.digest, level.open().level_digest())

    def test_nodes_have_names(self):
        for path in LEVELS:
            level = Level(path)
            game = level.open()
            for number in range(level.map.agents):
                names = level.node_names(number)
                self.assertEqual(names, level.node_names(chr(ord("A") + number)))
                self.assertEqual(names, level._parsed_names(number))
                self.assertEqual(len(names), len(game.memory(number)))
                self.assertEqual(len(names), len(game.nodes("", number)))
            with self.assertRaises(BtworldError):
                level.node_names(level.map.agents)

    def test_what_spells_a_level(self):
        spelled = WAREHOUSE.read_bytes()
        games = [Game.open(it) for it in (spelled, spelled.decode(), WAREHOUSE, Level(WAREHOUSE), bytearray(spelled), json.loads(spelled))]
        games += [Level(WAREHOUSE).open(), Game(WAREHOUSE)]
        for game in games:
            self.assertEqual(game, games[0])
        for script in (SCRIPT, SCRIPT.read_text(), SCRIPT.read_bytes()):
            with Game.open(WAREHOUSE, script) as game:
                for _ in range(12):
                    game.step_script()
                self.assertEqual(game.signals[0], 1)

    def test_refusals_say_why(self):
        for make in (Level, Game, Game.open, lambda it: Game.load(it, "")):
            with self.assertRaisesRegex(LevelError, "^level: tree t names a place that is not on the map$") as told:
                make(PLACELESS)
            self.assertEqual(told.exception.status, Status.LEVEL_NO_PLACE)
            with self.assertRaisesRegex(LevelError, r"level: json \('door.json' is taken for a level's text.*pathlib.Path\)"):
                make("door.json")
            with self.assertRaisesRegex(LevelError, "^level: json$"):
                make("{")
            with self.assertRaises(FileNotFoundError):
                make(Path("no such file"))
        with self.assertRaisesRegex(ScriptError, "^script: line 2$"):
            Game.open(DOOR, "1 on a\n2 on A\n")
        with self.assertRaises(StateError):
            Game.load(DOOR, "btworld")
        for kind in (LevelError, ScriptError, StateError, btworld.LogError):
            self.assertTrue(issubclass(kind, ValueError) and issubclass(kind, BtworldError))
        for error in (LevelError(16, "level: json"), BtworldError(4)):
            again = pickle.loads(pickle.dumps(error))
            self.assertEqual((type(again), str(again), again.status), (type(error), str(error), error.status))


class Games(unittest.TestCase):
    def test_declarations_are_those_of_the_header(self):
        """Numbers, texts, structs, and the arguments of each call."""
        header = (TOP / "include/btworld.h").read_text().partition("#ifdef BTWORLD_HOOKED")[0]
        enums = {"status": Status, "answer": Answer, "deed": Deed, "direction": Direction}
        for name, body in re.findall(r"^enum btworld_(\w+) {(.*?)^};", header, re.M | re.S):
            told = {name: int(it) for name, it in re.findall(r"^    BTWORLD_(\w+) = (\d+)", body, re.M)}
            self.assertTrue(told)
            self.assertLessEqual(told.items(), {it.name: int(it) for it in enums.pop(name)}.items())
        self.assertNotIn("status", enums)
        for status, words in re.findall(r'case BTWORLD_(\w+): return "(.*)";', header):
            if Status[status] > Status.SHORT and not Status.LEVEL_JSON <= Status[status] < Status.LOG_HEAD:
                self.assertEqual(str(BtworldError(Status[status])), words)
        structs = {"game": "Handle", "agent_state": "AgentState", "cell_state": "CellState", "intent_state": "IntentState", "way_state": "WayState"}
        kinds = {"uint32_t": ctypes.c_uint32, "uint8_t": ctypes.c_uint8, "bool": ctypes.c_bool, "void *": ctypes.c_void_p}
        for name, body in re.findall(r"typedef struct btworld_(\w+) {\s+(.*?)\s+}", header, re.S):
            wanted = []
            for kind, names in re.findall(r"(\w+ \*|\w+) ?(\w[\w, ]*);", body):
                wanted += [(it, kinds[kind]) for it in names.split(", ")]
            self.assertEqual(getattr(library, structs[name])._fields_, wanted)
        calls = re.findall(r"^(?:BTWORLD_SINCE_C99 )?(?:uint32_t|void) btworld_(\w+)\(([^)]*)\);", header, re.M)
        self.assertGreater(len(calls), 25)
        for name, arguments in calls:
            made = getattr(library, {"open": "open_script"}.get(name, name))
            if name == "open" or not library.exports(name):
                continue
            given = [] if arguments == "void" else re.findall(r"\s*([^,]*\W)\w+(?:,|$)", arguments)
            sizes = {"size_t": ctypes.c_size_t, "uint32_t": ctypes.c_uint32}
            told = [sizes.get(it.strip(), "pointer") for it in given]
            self.assertEqual([it if it in sizes.values() else "pointer" for it in made.argtypes or []], told, name)
        self.assertEqual(btworld.__version__, library.dotted(library.version()))

    def test_signals(self):
        wanted = Game.open(DOOR)
        wanted.step(3)
        given = [3, "ab", ["b", "a"], {"a", "b"}, Number(), iter("ab"), ("a", "b")]
        if numpy:
            given += [numpy.int64(3), numpy.uint8(3), numpy.array(3), numpy.array(["a", "b"])]
        for signals in given:
            game = Game.open(DOOR)
            game.step(signals)
            self.assertEqual(game, wanted)
        for wrong, kind in [(1 << 26, ValueError), (1 << 30, ValueError), (-1, ValueError), ("A", ValueError), ("1", ValueError),
                            ([1, 0], ValueError), (["ab"], ValueError), (1.5, TypeError), (None, TypeError), (b"a", ValueError)]:  # fmt: skip
            with self.assertRaises(kind, msg=repr(wrong)):
                wanted.step(wrong)
            with self.assertRaises(kind, msg=repr(wrong)):
                wanted.run(["", wrong])
        self.assertEqual(wanted.frame, 1)

    def test_run_is_many_steps(self):
        for path in LEVELS:
            one, other, dice = Game.open(path), Game.open(path), random.Random(path.name)
            steps = [dice.randrange(8) for _ in range(60)]
            self.assertEqual(one.run(steps), 60)
            for signals in steps:
                other.step(signals)
            self.assertEqual(one, other)
        self.assertEqual(one.run([]), 0)

    def test_copies_are_forks(self):
        game = Game.open(WAREHOUSE)
        game.run([0] * 9)
        for copied in (copy.copy(game), copy.deepcopy(game), copy.deepcopy([game])[0], game.fork()):
            self.assertEqual(copied, game)
            copied.step()
            self.assertNotEqual(copied, game)
            del copied
        gc.collect()
        game.step()
        self.assertEqual(game.frame, 10)
        with self.assertRaises(TypeError):
            hash(game)
        with self.assertRaises((TypeError, ValueError)):
            copy.copy(game._handle)

    def test_pickled_games_go_on_alike(self):
        """State, text and the script so far are there again, also where an unpickled game is pickled once more."""
        dice = random.Random(1)
        for path in LEVELS:
            game = Game.open(path)
            for frame in range(40):
                again = pickle.loads(pickle.dumps(game))
                for _ in range(dice.randrange(3)):
                    signals = dice.randrange(8)
                    game.step(signals)
                    again.step(signals)
                    again = pickle.loads(pickle.dumps(again))
                for tell in (Game.state, Game.script, Game.digest, lambda it: it.signals, lambda it: it.frame and it.text(), repr):
                    self.assertEqual(tell(again), tell(game))
                self.assertEqual(again, game)
                game.step("a")
        with Game.open(DOOR) as game:
            self.assertEqual(pickle.loads(pickle.dumps(game)).frame, 0)
        with self.assertRaises(BtworldError):
            pickle.dumps(game)

    def test_games_with_a_script_are_loaded_and_pickled(self):
        game = Game.open(WAREHOUSE, SCRIPT)
        for _ in range(20):
            game.step_script()
        if not library.exports("load_script"):
            for call in (lambda: pickle.dumps(game), lambda: Game.load(WAREHOUSE, game.state(), SCRIPT)):
                with self.assertRaisesRegex(LibraryTooOldError, "version 2.1"):
                    call()
            return
        copies = [pickle.loads(pickle.dumps(game)), Game.load(WAREHOUSE, game.state(), SCRIPT)]
        for _ in range(50):
            game.step_script()
            for it in copies:
                it.step_script()
                self.assertEqual((it, it.signals), (game, game.signals))
        self.assertEqual(copies[0].script(), game.script())
        with self.assertRaisesRegex(ScriptError, "^script: line 1$"):
            Game.load(WAREHOUSE, game.state(), "x")

    def test_pickled_after_frame_9999(self):
        game = Game.open(DOOR)
        game.run(frame % 2 for frame in range(10001))
        again = pickle.loads(pickle.dumps(game))
        self.assertEqual((again, again.has_whole_script), (game, False))
        with self.assertRaises(BtworldError) as told:
            game.script()
        self.assertEqual(told.exception.status, Status.LONG)

    def test_loaded_games_have_no_whole_script(self):
        game = Game.open(DOOR, "3 on a\n")
        game.step("a")
        loaded = Game.load(DOOR, game.state())
        self.assertEqual((loaded, loaded.signals), (game, (1, 0)))
        self.assertEqual((game.has_whole_script, loaded.has_whole_script, loaded.fork().has_whole_script), (True, False, False))
        self.assertFalse(pickle.loads(pickle.dumps(loaded)).has_whole_script)
        with self.assertRaisesRegex(ValueError, "loaded from a state"):
            Report.of(loaded, "")
        for it in (game, loaded):
            it.step_script()
            it.step_script()
        self.assertEqual((game.signals[0], loaded.signals[0]), (1, 0))

    def test_closed_games(self):
        with Game.open(DOOR) as game:
            self.assertTrue(game.is_open)
        self.assertEqual(repr(game), "<btworld.Game, closed>")
        game.close()
        calls = (game.step, game.text, game.fork, game.digest, game.view, game.cells, lambda: game.frame, lambda: game.map, lambda: game.agents,
                 lambda: game.run([1]), lambda: copy.copy(game))  # fmt: skip
        for call in calls:
            with self.assertRaises(BtworldError) as told:
                call()
            self.assertEqual(told.exception.status, Status.CLOSED)
        self.assertTrue(game == game and game != Game.open(DOOR) and game != 1)

    def test_nothing_is_printed_where_init_fails_or_python_ends(self):
        code = """
import btworld, gc
for wrong in ("x", {}, b"", "{}", 5, None):
    try: btworld.Game.open(wrong)
    except (ValueError, TypeError) as error: print(type(error).__name__)
    try: btworld.Game(wrong)
    except (ValueError, TypeError): pass
class Own(btworld.Game):
    def __init__(self): raise RuntimeError
try: Own()
except RuntimeError: pass
object.__new__(btworld.Game); object.__new__(btworld.Level)
gc.collect()
kept = btworld.Game.open('{"map": ["."], "agents": [], "trees": {}}')
ring = [kept]; ring.append(ring)
"""
        made = subprocess.run([sys.executable, "-c", code], stdout=subprocess.PIPE, stderr=subprocess.PIPE, text=True)
        self.assertEqual((made.stderr, made.returncode), ("", 0))
        self.assertEqual(made.stdout.split(), ["LevelError"] * 4 + ["TypeError"] * 2)

    def test_views_cells_and_texts_agree(self):
        for path in LEVELS:
            level = Level(path)
            game, width, height = level.open(), level.map.width, level.map.height
            for _ in range(30):
                rows, view, cells = game.rows(), game.view(), game.cells()
                self.assertEqual([(len(cells), len(row)) for row in cells], [(height, width)] * height)
                self.assertEqual(cells, [[game.cell(x, y) for x in range(width)] for y in range(height)])
                self.assertEqual((game.glyphs().decode(), game.agents), ("".join(rows), list(view.agents)))
                for it in view.agents:
                    self.assertEqual((rows[it.y][it.x], cells[it.y][it.x].agent), (it.letter, ord(it.letter) - ord("A")))
                self.assertEqual(view.items, {(x, y) for y in range(height) for x in range(width) if cells[y][x].item})
                self.assertEqual(tuple("".join(it.mark for it in row) for row in cells), level.marks)
                if game.frame:
                    self.assertEqual("\n".join(rows) + "\n", "".join(game.text().splitlines(True)[1 : 1 + height]))
                    self.assertEqual([game.agent(k) for k in range(level.map.agents)], list(view.agents))
                else:
                    self.assertEqual(rows, json.loads(path.read_text())["map"])
                game.step("ab")
        with self.assertRaises(BtworldError) as told:
            game.cell(width, 0)
        self.assertEqual(told.exception.status, Status.NO_CELL)

    def test_agents_that_are_not_there(self):
        game = Game.open(WAREHOUSE)
        game.step()
        for wrong in (4, -1, "E", "a", "AB", "", 99):
            for call in (game.memory, game.agent, lambda it: game.nodes("", it)):
                with self.assertRaises(BtworldError) as told:
                    call(wrong)
                self.assertEqual(told.exception.status, Status.NO_AGENT)

    def test_nodes_tell_what_a_step_does(self):
        for path in LEVELS:
            game, dice = Game.open(path), random.Random(path.name)
            for _ in range(20):
                signals = dice.randrange(8)
                told = [game.nodes(signals, number)[0] for number in range(game.map.agents)]
                game.step(signals)
                self.assertEqual(told, [it.answer for it in game.agents])
                self.assertNotIn(Answer.NOT_TICKED, told)

    def test_explanations(self):
        """What `btworld why` and `btworld explain` write, and intents and ways, where the library has them."""
        game = Game.open(WAREHOUSE)
        calls = {"why": lambda: game.why("a", "A"), "explain": lambda: btworld.explain(b"{}"),
                 "intent": lambda: game.intent("a", "A"), "way": lambda: game.way("a", "A", "0")}  # fmt: skip
        for name, call in calls.items():
            if not library.exports(name):
                self.assertRaisesRegex(LibraryTooOldError, f"btworld_{name} needs version 2.1.0", call)
        if library.exports("why"):
            for signals in ("", "a"):
                told, names, answers = game.why(signals, "A"), game.level.node_names("A"), game.nodes(signals, "A")
                self.assertEqual(len(told.splitlines()), 2 + len(names), told)
                for line, name, answer in zip(told.splitlines()[2:], names, answers):
                    self.assertIn(name.strip(), line)
                    self.assertEqual(line[0], "SFR."[answer], line)
        if library.exports("explain"):
            self.assertEqual(btworld.explain(WAREHOUSE.read_bytes()), "")
            self.assertEqual(btworld.explain(b"{}").splitlines()[0], "1:1")
            self.assertRegex(btworld.explain(WAREHOUSE.read_bytes(), b"1 on a\n2 on A\n"), r"\A2\n.+")
        if library.exports("way"):
            corridor = Game.open({"map": ["A.a0"], "agents": ["t"], "trees": {"t": ["move", "0"]}})
            self.assertEqual(corridor.way("a", "A", "0"), (3, Direction.EAST))
            self.assertEqual(corridor.way("", 0, 0), (0, Direction.NO_WAY))
            corridor.run(["a"] * 4)
            self.assertEqual(corridor.way("a", "A", 0), (0, Direction.HERE))
            for place in (-1, 10):
                with self.assertRaises(BtworldError) as told:
                    corridor.way("a", "A", place)
                self.assertEqual(told.exception.status, Status.NO_PLACE)
        if library.exports("intent"):
            tree = ["fallback", ["give", "B"], ["seq", ["item"], ["take"]], ["move", "0"]]
            game = Game.open({"map": ["A*0", ".B."], "agents": ["t", "u"], "trees": {"t": tree, "u": ["wait", 9]}})
            for wanted in ((Deed.MOVE, 5, 1, 0, Direction.EAST, None, True), (Deed.TAKE, 4, 1, 0, None, None, True),
                           (Deed.GIVE, 1, 1, 1, None, 1, True)):  # fmt: skip
                self.assertEqual(game.intent("", "A"), wanted)
                self.assertEqual(game.intent("", "B"), (Deed.STAY, None, 1, 1, None, None, False))
                game.step()
            jam = Game.open({"map": ["AB0"], "agents": ["t", "u"], "trees": {"t": ["move", "0"], "u": ["wait", 9]}})
            self.assertEqual(jam.intent("", "A"), (Deed.MOVE, 0, 1, 0, Direction.EAST, None, False))

    def test_reports(self):
        game = Game.open(WAREHOUSE)
        game.run(["", "a", "ab"])
        report = Report.read(Report.of(game, "it stands").text())
        self.assertEqual((report.difference(), report.game()), ("", game))
        self.assertIn("the level here is", report._replace(level=Level(DOOR)).difference())
        for wrong in ("[]", "{}", "x", '{"level": 1}'):
            self.assertRaises(ValueError, Report.read, wrong)

    def test_threads(self):
        """Games of one level, side by side."""
        level, found = Level(WAREHOUSE), []

        def play():
            for _ in range(5):
                game = level.open()
                game.run("a" for _ in range(60))
                found.append(game.digest())

        threads = [threading.Thread(target=play) for _ in range(4)]
        for it in threads:
            it.start()
        for it in threads:
            it.join()
        self.assertEqual((len(found), len(set(found))), (20, 1))


if __name__ == "__main__":
    unittest.main()
