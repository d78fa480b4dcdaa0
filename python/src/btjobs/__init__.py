"""Does a simulation's outcome depend on the order of its jobs?  Plays it in legal orders drawn by seeds, and names the two jobs whose
order decides.

    import btjobs
    class Life(btjobs.Game):
        def start(self): ...                         # the first world
        def think(self, view, answers): ...          # a thought; or btjobs.Ask(question), and it is called again with the answer
        def answer(self, view, question): ...
        def turn(self, start, thoughts): ...         # the next world
        def draw(self, world, band): ...
    btjobs.main(Life, btjobs.Settings(frames=6, agents=40, bands=2, most_questions=2))    # status 0: all orders agree, 1: they don't

What is promised: the same frames for any number of workers and any schedule, *if* each of these functions is one of its arguments. No
proof sees that; the finder tries it. A job that changes its world in place is found as well. Proved is the board behind the C library
(libbtjobs.so); this package is tested."""
from ._finder import Finding, compare, explore
from ._game import Ask, Game, Settings, Start, View
from ._library import Error, version
from ._log import read_log, write_log
from ._program import main
from ._steps import Step
from ._threads import run

__all__ = ["Ask", "Error", "Finding", "Game", "Settings", "Start", "Step", "View", "compare", "explore", "main", "read_log", "run", "version", "write_log"]
