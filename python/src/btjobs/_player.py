"""One run of a game, a step at a time, in any legal order."""
import heapq
from bisect import bisect_left, insort

from ._game import Ask, Start, View
from ._library import Board, Error
from ._steps import Step, came


class Player:
    def __init__(self, game, settings, workers=1):
        self.game, self.n, self.board = game, settings, Board(settings, workers)
        self.world, self.slots, self.shown, self.started, self.input, self.order, self.results = game.start(), {}, 0, 0, 0, [], {}
        self.fresh, self.ready = [], []  # sorted: what may be taken up and wants a large fiber for it, and what has one or wants none
        self._rank, self._ranked = None, ([], [])
        if settings.frames:
            self._may_begin(1)

    def close(self):
        self.board.close()

    def is_over(self):
        return self.shown == self.n.frames

    # What may be taken up.

    def _may_start(self):
        return self.started < self.n.started

    def _add(self, steps, s):
        insort(steps, s)
        if self._rank:
            heapq.heappush(self._ranked[steps is self.fresh], (self._rank(s), s))

    def rank_by(self, rank):
        """Gives each step a rank: highest() is then the one of the least number."""
        self._rank = rank
        for steps in (self.ready, self.fresh):
            for s in steps:
                heapq.heappush(self._ranked[steps is self.fresh], (rank(s), s))

    def highest(self):
        best = None
        for steps, ranked in zip((self.ready, self.fresh if self._may_start() else []), self._ranked):
            while ranked and steps and not self._has(steps, ranked[0][1]):
                heapq.heappop(ranked)
            if steps and ranked and (best is None or ranked[0] < best):
                best = ranked[0]
        return best and best[1]

    @staticmethod
    def _has(steps, s):
        at = bisect_left(steps, s)
        return at < len(steps) and steps[at] == s

    def open(self):
        return len(self.ready) + (len(self.fresh) if self._may_start() else 0)

    def open_at(self, i):
        return self.ready[i] if i < len(self.ready) else self.fresh[i - len(self.ready)]

    def first(self):
        return min(self.ready[:1] + (self.fresh[:1] if self._may_start() else []), default=None)

    def last(self):
        return max(self.ready[-1:] + (self.fresh[-1:] if self._may_start() else []), default=None)

    def _slot(self, frame):
        return self.slots[frame % self.n.slots]

    def _may_begin(self, frame):
        if frame > self.n.frames:
            return
        self.input = frame if frame > self.shown + self.n.slots else 0
        if not self.input:
            self._add(self.fresh, Step(frame, 0, 0, 0))

    # Steps.

    def show(self):
        """Shows the next frame, if it is ready."""
        slot = self.slots.get((self.shown + 1) % self.n.slots)
        if self.is_over() or not slot or slot["start"].frame != self.shown + 1 or "turned" not in slot or len(slot["bands"]) < self.n.bands:
            return False
        frame = self.board.show()
        if frame is None:
            raise Error(f"the board refuses to show frame {self.shown + 1}")
        self.shown = frame
        s = Step(frame, 4, 0, 0)
        self.order.append(s)
        self.results[s] = None
        self.results[s] = came(self.game.show(frame, [slot["bands"][b] for b in range(self.n.bands)]))
        if self.input:
            self._may_begin(self.input)
        return True

    def play(self, s, worker=0):
        """Plays this step whole, if it is legal now. An exception of the job's comes out, and its step is the last of the order."""
        if s.rank == 4:
            return s.frame == self.shown + 1 and self.show()
        starts = s.rank == 0 or (s.rank == 1 and s.part == 0)
        steps = self.fresh if starts else self.ready
        at = bisect_left(steps, s)
        if at == len(steps) or steps[at] != s or (starts and not self._may_start()):
            return False
        if not self.board.take_up(worker, s.kind, s.frame, s.index, s.question):
            raise Error(f"the board refuses {s}")
        del steps[at]
        self.started += starts
        self.order.append(s)
        self.results[s] = None
        asked, value = self._work(s)
        self.results[s] = came(value)
        self._follow(s, asked, worker)
        return True

    def _work(self, s):
        game, frame = self.game, s.frame
        if s.rank == 0:
            signals = game.signals(frame)
            self.slots[frame % self.n.slots] = {"start": Start(frame, self.world, signals), "thoughts": {}, "answers": {}, "asked": {}, "bands": {}}
            return False, signals
        slot = self._slot(frame)
        if s.rank == 2:
            self.world = slot["turned"] = game.turn(slot["start"], [slot["thoughts"][a] for a in range(self.n.agents)])
            return False, self.world
        if s.rank == 3:
            slot["bands"][s.index] = value = game.draw(slot["turned"], s.index)
            return False, value
        view = View(frame, s.index, *slot["start"][1:])
        answers = slot["answers"].setdefault(s.index, [])
        if s.part % 2:
            answers.append(game.answer(view, slot["asked"][s.index]))
            return False, answers[-1]
        value = game.think(view, tuple(answers))
        if isinstance(value, Ask):
            slot["asked"][s.index] = value.question
            return True, ("asks", value.question)
        slot["thoughts"][s.index] = value
        return False, value

    # Tells the board; and what may be taken up now that this step is over.
    def _follow(self, s, asked, worker):
        n, (frame, rank, index, part) = self.n, s
        if rank == 0:
            self.board.spread(worker)
            for a in range(n.agents):
                self._add(self.fresh, Step(frame, 1, a, 0))
            if not n.agents:
                self._add(self.ready, Step(frame, 2, 0, 0))
            return
        if asked:
            self.board.ask(worker)
            return self._add(self.ready, Step(frame, 1, index, part + 1))
        self.board.finish(worker)
        if rank == 1 and part % 2:
            self._add(self.ready, Step(frame, 1, index, part + 1))
        elif rank == 1:
            self.started -= 1
            if len(self._slot(frame)["thoughts"]) == n.agents:
                self._add(self.ready, Step(frame, 2, 0, 0))
        elif rank == 2:
            self.started -= 1
            for b in range(n.bands):
                self._add(self.ready, Step(frame, 3, b, 0))
            self._may_begin(frame + 1)

    def plain(self):
        """The next step of the plain order; False where all is shown."""
        if self.is_over():
            return False
        if self.show():
            return True
        s = self.first()
        if s is None or not self.play(s):
            raise Error("the board is stuck")
        return True
