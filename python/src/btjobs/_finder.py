"""Plays a game in drawn orders, compares, and makes a difference small: until two orders differ in two neighbouring steps."""
import random
import time
from dataclasses import dataclass, field, replace

from ._library import Error
from ._player import Player
from ._steps import order_of
from ._threads import run


@dataclass
class Finding:
    """What was found. `verdict` is 'agrees'; 'not repeatable': the plain order came to something else when it was played again; 'settings': it
    did with other workers, fibers or slots; 'order': the order of two steps decides; 'torn': a run on threads differs, and its order on one
    thread doesn't; 'unexplained': a drawn order differs, and doesn't when it is played again."""
    verdict: str = "agrees"
    seed: int = 0
    orders: int = 0
    runs: int = 0
    steps: int = 0
    replays: int = 0
    seconds: float = 0.0
    out_of_time: bool = False
    settings: object = None
    workers: int = 1
    job: object = None          #: the first that comes to something else
    early: object = None        #: of 'order': it does when `early` runs just before `late`,
    late: object = None         #: and doesn't just after it
    neighbours: bool = False    #: the two orders differ in nothing but these two steps, next to one another
    out_of_order: int = 0
    agreeing: list = field(default_factory=list)
    differing: list = field(default_factory=list)
    agreeing_log: list = field(default_factory=list)
    differing_log: list = field(default_factory=list)
    agreeing_value: str = ""
    differing_value: str = ""
    thrown: str = ""
    file: str = ""
    program: str = "PROGRAM"

    def agrees(self):
        return self.verdict == "agrees"

    def json(self):
        """Returns the same as a dict for JSON; None stands for what a verdict hasn't."""
        job, pair, n = self.job is not None, self.verdict == "order", self.settings
        name = lambda s: s.json() if s is not None else None
        return {"verdict": self.verdict, "orders": self.orders, "runs": self.runs, "steps": self.steps, "replays": self.replays, "seconds": self.seconds,
                "out_of_time": self.out_of_time, "seed": self.seed or None, "job": name(self.job), "early": name(self.early), "late": name(self.late),
                "neighbours": self.neighbours if pair else None, "out_of_order": self.out_of_order if pair else None,
                "agreeing_value": self.agreeing_value if job else None, "differing_value": self.differing_value if job else None, "thrown": self.thrown or None,
                "log": self.file or None, "workers": self.workers, "slots": n.slots, "started": n.started, "running": n.running, "text": str(self)}

    def _around(self, order):
        pair = (self.early, self.late)
        at = next((i for i, s in enumerate(order) if s in pair), 0)
        return ("..., " if at > 2 else "") + ", ".join(f"[{s}]" if s in pair else str(s) for s in order[max(0, at - 2):at + 3]) + ", ..."

    def __str__(self):
        n, job, early, late = self.settings, self.job, self.early, self.late
        came = f"throws {self.thrown}" if self.thrown else "comes to something else"
        values = not self.thrown and self.agreeing_value != self.differing_value
        if self.verdict == "agrees":
            runs = f", and {self.runs} runs on threads" if self.runs else ""
            return f"{self.orders} orders agree{runs}" + ("; the time was up before the others" if self.out_of_time else "")
        if self.verdict == "order":
            when = f"{early} runs just before it" if late == job else f"it runs just before {late}" if early == job else f"{early} runs just before {late}"
            lines = [f"depends on the order: {job} {came} when {when}"]
            if values:
                lines += [f"    {self.differing_value[:160]}", "  where it came to", f"    {self.agreeing_value[:160]}"]
            lines += [f"  agrees:  {self._around(self.agreeing)}", f"  differs: {self._around(self.differing)}"]
            same = "Up to there the two orders are the same, and these two steps are all that they have otherwise. Both are" if self.neighbours else "Both orders are"
            lines.append(f"  {same} legal and were played again.")
            if job in (early, late):
                lines.append(f"  So {early} and {late} share what they may not: look at what both touch besides their arguments.")
            else:
                lines.append(f"  So these two share something besides their arguments, whose state {job} reads later.")
        elif self.verdict == "not repeatable":
            lines = [f"not repeatable: {job} {came} when the same order is played a second time"]
            if values:
                lines += [f"    {self.agreeing_value[:160]}", "  and then", f"    {self.differing_value[:160]}"]
            lines += ["  It reads what neither its arguments nor the order settle: a global that the run before left, an object's id or a set's order, the time, or a",
                      "  random device."]
        elif self.verdict == "settings":
            lines = [f"depends on the settings: {job} {came} in the plain order with slots {n.slots}, started {n.started}, running {n.running}",
                     "  It reads what another frame left in its slot, or a number of the settings."]
        elif self.verdict == "torn":
            lines = ["depends on threads: a run on threads comes to something else, and its very order on one thread doesn't",
                     "  Two jobs meet within their work."]
        else:
            lines = [f"an order differs, and not each time: {job} {came}", "  It reads what neither its arguments nor the order settle (see \"not repeatable\")."]
        at = f"at seed {self.seed} ({self.workers} workers, slots {n.slots}, started {n.started}, running {n.running}), " if self.seed else ""
        small = f": {self.out_of_order} step{'s' * (self.out_of_order > 1)} out of the plain order" if self.out_of_order else ""
        lines.append(f"  found {at}in {self.seconds:.2f} s, with {self.replays} replays to make it small{small}")
        if self.file:
            lines.append(f"  again: {self.program} --replay {self.file}")
        return "\n".join(lines)


def given_by(seed, n):
    """Returns what a seed's order is played under: few and many workers, fibers and slots."""
    workers = 1 if seed == 1 else 64 if seed % 16 == 5 else random.Random(seed * 77 + 5).randint(1, 8)
    if seed % 4 == 2:
        return replace(n, slots=1), workers
    if seed % 4 == 3:
        return replace(n, started=2, running=1), workers
    return (replace(n, slots=min(16, n.slots * 2)) if seed % 8 == 4 else n), workers


def play_drawn(p, seed, workers, go_on):
    """Draws a whole order, by turns in four ways: any legal step alike; mostly the last by name (the first seed is the plain order backwards,
    which turns round nearly all pairs); by a drawn rank of each job; mostly the plain order."""
    r, way = random.Random(seed), seed % 4
    if way == 2:
        p.rank_by(lambda s: random.Random(f"{seed} {tuple(s)}").random())
    while not p.is_over() and go_on():
        count = p.open()
        if (not count or (way != 1 and r.random() < 0.25)) and p.show():
            continue
        if way == 2:
            s = p.highest()
        elif count and (way == 0 or (seed != 1 and r.random() < 0.125)):
            s = p.open_at(r.randrange(count))
        else:
            s = p.last() if way == 1 else p.first()
        if not (p.play(s, r.randrange(workers)) if s is not None else p.show()):
            raise Error("the board is stuck")


class _Played:
    def __init__(self, player, thrown):
        self.order, self.results, self.thrown, self.log = player.order, player.results, thrown, player.board.log()


def first_difference(one, other, frames, behind=0):
    """Returns the first step, in the plain order, at which two runs differ, of the frames behind `behind` and up to `frames`."""
    return min((s for s in one.keys() | other.keys() if behind < s.frame <= frames and one.get(s) != other.get(s)), default=None)


class _Explorer:
    def __init__(self, make, settings, options):
        self.make, self.settings, self.options = make, settings, options
        self.found, self.began = Finding(settings=settings, program=options["program"]), time.monotonic()

    def played(self, n, workers, play):
        p, thrown = Player(self.make(), n, workers), None
        try:
            play(p)
        except Error:
            raise  # of the library: wrong settings, too many questions
        except Exception as e:
            thrown = e
            p.results[p.order[-1]] = f"throws {e!r}"
        self.found.steps += len(p.order)
        try:
            return _Played(p, thrown)
        finally:
            p.close()

    def hybrid(self, given, wanted, frame):
        """Plays each of these steps as soon as it is legal, with plain steps before it until it is; then the plain order, until the frame is shown."""
        def play(p):
            for s in wanted:
                while p.shown < frame and s not in p.results and not p.play(s):
                    if not p.plain():
                        return
            while p.shown < frame and p.plain():
                pass
        return self.played(*given, play)

    def differs(self, given, wanted, job):
        self.found.replays += 1
        self.progress("making it small, replays", self.found.replays, 8)
        return self.hybrid(given, wanted, job.frame).results.get(job) != self.plain.results.get(job)

    def progress(self, what, at, each):
        if self.options["progress"] and at % each == 0:
            self.options["progress"](what, at, time.monotonic() - self.began)

    def is_out_of_time(self):
        limit = self.options["seconds"]
        self.found.out_of_time = bool(limit) and time.monotonic() - self.began > limit
        return self.found.out_of_time

    def finish(self, verdict, job=None, given=None, played=None):
        f = self.found
        f.verdict, f.seconds = verdict, time.monotonic() - self.began
        if job is not None:
            f.job = job
        if given:
            f.settings, f.workers = given
        if played:
            f.differing, f.differing_log, f.thrown = played.order, played.log, repr(played.thrown) if played.thrown else ""
        return f

    def smallest(self, given, order, job):
        """Returns as few of these steps as a pass of delta debugging gets: without any one of those that are left, it agrees."""
        part = max(1, len(order) // 2)
        while True:
            at, less = 0, False
            while at < len(order) and self.found.replays < self.options["most_replays"]:
                without = order[:at] + order[at + part:]
                if self.differs(given, without, job):
                    order, less = without, True
                else:
                    at += part
            if part == 1 and not less or self.found.replays >= self.options["most_replays"]:
                return order
            part = max(1, part // 2)

    def explore(self):
        frames, base = self.settings.frames, (self.settings, 1)
        self.plain = plain = self.hybrid(base, [], frames)
        if plain.thrown:
            raise plain.thrown  # it throws in the plain order: no matter of orders
        for again in range(1, 4):
            kept = [bytearray(8 + i * again % 600) for i in range(400)]  # objects lie elsewhere then
            del kept[::2]
            other = self.hybrid(base, [], frames)
            job = first_difference(plain.results, other.results, frames)
            if job:
                self.found.agreeing_value, self.found.differing_value = plain.results[job], other.results.get(job, "nothing")
                return self.finish("not repeatable", job, base, other)
        for seed in range(self.options["start"], self.options["start"] + self.options["seeds"]):
            if self.is_out_of_time():
                break
            given, job, seen = given_by(seed, self.settings), None, 0

            def go_on(p):
                nonlocal job, seen
                if p.shown != seen:
                    job = first_difference({s: plain.results.get(s) for s in p.order[self.at:]}, {s: p.results[s] for s in p.order[self.at:]}, p.shown)
                    seen, self.at = p.shown, len(p.order)
                return job is None

            def play(p):
                self.at = 0
                play_drawn(p, seed, given[1], lambda: go_on(p))
            drawn = self.played(*given, play)
            self.found.orders += 1
            self.progress("orders", self.found.orders, 8)
            if drawn.thrown or job or drawn.results != plain.results:
                job = drawn.order[-1] if drawn.thrown else first_difference(plain.results, drawn.results, seen if job else frames)
                return self.explain(seed, given, drawn, job)
        return self.on_threads() if self.options["runs"] else self.finish("agrees")

    def on_threads(self):
        """Plays on threads. What a run comes to is compared; where it differs its log says the order, which is played on one thread."""
        one = run(self.make(), self.settings, 1)
        while self.found.runs < self.options["runs"] and not self.is_out_of_time():
            self.found.runs += 1
            self.progress("runs on threads", self.found.runs, 8)
            now = run(self.make(), self.settings, self.options["threads"])
            if now.came == one.came:
                continue
            given = (self.settings, self.options["threads"])
            again = self.hybrid(given, [s for s, _ in order_of(now.log)], self.settings.frames)
            job = first_difference(self.plain.results, again.results, self.settings.frames)
            if job:
                return self.explain(0, given, again, job)
            self.found.differing_log = now.log
            return self.finish("torn", given=given)
        return self.finish("agrees")

    def explain(self, seed, given, drawn, job):
        self.found.seed, plain = seed, self.plain
        there = self.hybrid(given, [], self.settings.frames)  # the plain order, under what this order was played under
        first = first_difference(plain.results, there.results, self.settings.frames)
        if first:
            self.found.agreeing_value, self.found.differing_value = plain.results[first], there.results.get(first, "nothing")
            return self.finish("settings", first, given, there)
        order, base = list(drawn.order), (self.settings, 1)
        if self.differs(base, order, job):
            given = base  # an order that is legal with few fibers and slots is so with more, and is easier to change then
        for _ in range(6):
            if not self.differs(given, order, job):
                return self.finish("unexplained", job, given, drawn)
            low, high = 0, len(order)  # the first steps of the order, then the plain one: where does it begin to differ?
            while high - low > 1:
                m = (low + high) // 2
                low, high = (low, m) if self.differs(given, order[:m], job) else (m, high)
            order = order[:high]
            if len(order) > 1:  # does one step of the job's frame do alone?
                steps = [s for s in self.hybrid(given, [], job.frame).order if s.frame == job.frame][:300]
                alone = next((s for s in steps if self.differs(given, [s], job)), None)
                order = [alone] if alone else order
            order = self.smallest(given, order, job)
            again = first_difference(plain.results, self.hybrid(given, order, job.frame).results, job.frame)
            if again in (None, job):
                break
            job = again  # another job differs first now
        self.found.out_of_order = len(order)
        if not order:
            return self.finish("unexplained", job, given, drawn)
        # The last of them is what makes it differ. Let it go back towards its place, a step at a time.
        last, without, with_ = order[-1], self.hybrid(given, order[:-1], job.frame).order, self.hybrid(given, order, job.frame).order
        place = lambda o, s: o.index(s) if s in o else len(o)
        low, high = place(with_, last), place(without, last)
        if high <= low:
            return self.finish("unexplained", job, given, drawn)
        while high - low > 1:
            m = (low + high) // 2
            low, high = (m, high) if self.differs(given, without[:m] + [last], job) else (low, m)
        one, other = self.hybrid(given, without[:high] + [last], job.frame), self.hybrid(given, without[:low] + [last], job.frame)  # once more, to be sure
        self.found.replays += 2
        if one.results.get(job) != plain.results.get(job) or other.results.get(job) == plain.results.get(job):
            return self.finish("unexplained", job, given, drawn)
        f, at = self.found, place(other.order, last)
        f.early, f.late = last, without[high - 1]
        f.neighbours = other.order[:at] == one.order[:at] and other.order[at:at + 2] == [last, f.late] and one.order[at:at + 2] == [f.late, last]
        f.agreeing, f.agreeing_log, f.agreeing_value, f.differing_value = one.order, one.log, one.results[job], other.results[job]
        return self.finish("order", job, given, other)


def explore(make, settings, seeds=200, start=1, seconds=0, runs=0, threads=4, progress=None, most_replays=3000, program="PROGRAM"):
    """Plays the plain order and so many drawn ones, and then so many runs on threads. `make` makes a new game for each. Draws no more after
    so many seconds, where that isn't 0. Returns a Finding; raises what a job raises in the plain order."""
    return _Explorer(make, settings, {"seeds": seeds, "start": start, "seconds": seconds, "runs": runs, "threads": threads, "progress": progress,
                                      "most_replays": most_replays, "program": program}).explore()


def compare(make, settings, workers, log):
    """Plays a log's order beside the plain one. Returns the step that comes to something else first, or None, and a text."""
    steps = order_of(log)

    def results(steps):
        p = Player(make(), settings, workers)
        try:
            for s, worker in steps:
                if not p.play(s, worker):
                    raise Error(f"the log isn't of this game: {s} can't be played")
            while not steps and p.plain():
                pass
        except Error:
            raise
        except Exception as e:
            p.results[p.order[-1]] = f"throws {e!r}"
            return p.results, p.order[-1]
        finally:
            p.close()
        return p.results, None
    (plain, _), (other, thrower) = results([]), results(steps)
    job = thrower or min((s for s in other if other[s] != plain.get(s)), default=None)
    if job is None:
        return None, f"this order of {len(steps)} steps comes to the same as the plain order"
    if thrower:
        return job, f"{job} {other[job]}"
    return job, f"{job} comes to something else than in the plain order\n    {other[job][:160]}\n  where it came to\n    {plain.get(job, 'nothing')[:160]}"
