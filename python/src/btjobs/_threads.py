"""A run on threads, for `--runs`: to compare with. (Python's threads take turns, so it is no faster than one.)"""
import threading
from collections import namedtuple

from ._game import Ask, Start, View
from ._library import ANSWER, DRAW, THINK, TURN, Board
from ._steps import came

Run = namedtuple("Run", "world came log")


def run(game, settings, threads, on_frame=None):
    """Plays a game on so many threads, and returns its last world, what was shown of each frame as text, and the log. An exception of a job
    stops the run and comes out of here."""
    n, lock, shown, thrown = settings, threading.Condition(), [], []
    slots, state = {}, {"world": game.start(), "last": 0}
    board = Board(n, threads)

    def work(kind, frame, index, question):
        slot = slots.get(frame % n.slots)
        if kind == TURN and question == 0:
            return game.signals(frame)
        if kind == TURN:
            return game.turn(slot["start"], [slot["thoughts"][a] for a in range(n.agents)])
        if kind == DRAW:
            return game.draw(slot["turned"], index)
        view = View(frame, index, *slot["start"][1:])
        answers = slot["answers"].setdefault(index, [])
        return game.answer(view, slot["asked"][index]) if kind == ANSWER else game.think(view, tuple(answers))

    def tell(worker, kind, frame, index, question, value):
        if kind == TURN and question == 0:
            if board.spread(worker):
                slots[frame % n.slots] = {"start": Start(frame, state["world"], value), "thoughts": {}, "answers": {}, "asked": {}, "bands": {}}
            return
        slot = slots[frame % n.slots]
        if kind == THINK and isinstance(value, Ask):
            slot["asked"][index] = value.question
            return board.ask(worker)
        if kind == TURN:
            state["world"] = slot["turned"] = value
        elif kind == ANSWER:
            slot["answers"][index].append(value)
        else:
            slot["thoughts" if kind == THINK else "bands"][index] = value
        board.finish(worker)

    def worker(number):
        try:
            with lock:
                while not thrown:
                    while (frame := board.show()) is not None:
                        slot = slots[frame % n.slots]
                        bands = [slot["bands"][b] for b in range(n.bands)]
                        shown.append(came((slot["turned"], bands, game.show(frame, bands))))
                        state["last"] = frame
                        if on_frame:
                            on_frame(frame, slot["turned"], bands)
                    if state["last"] == n.frames:
                        break
                    job = board.take(number)
                    if job is None:
                        lock.wait()
                        continue
                    lock.release()
                    try:
                        value = work(*job)
                    finally:
                        lock.acquire()
                    if not thrown:
                        tell(number, *job, value)
                        lock.notify_all()
        except BaseException as e:
            with lock:
                thrown.append(e)
        with lock:
            lock.notify_all()

    others = [threading.Thread(target=worker, args=(i,)) for i in range(1, threads)]
    for thread in others:
        thread.start()
    worker(0)
    for thread in others:
        thread.join()
    log = board.log()
    board.close()
    if thrown:
        raise thrown[0]
    return Run(state["world"], shown, log)
