"""The calls of btjobs.h, and an owner of a board."""
import ctypes
import ctypes.util
import os
from pathlib import Path

OK, ILLEGAL, NOTHING, SHORT, LOG_HEAD, LOG_LINE = 0, 8, 9, 11, 12, 13
TURN, THINK, ANSWER, DRAW, SHOW = range(5)
START, RESUME, ASK, SPREAD, HOLD, FINISH, EMIT, STOP = range(8)
TEXTS = ("ok", "out of memory", "the board is closed", "the board is open", "the board is stopped", "no such worker", "the worker runs a job",
         "the worker runs no job", "not legal now", "nothing to take", "numbers out of limits", "the buffer is too short",
         "not the first line of a log", "not a line of a log")


class Error(Exception):
    """What the library refuses, or a log that isn't one of the game's."""


class _Numbers(ctypes.Structure):
    _fields_ = [(name, ctypes.c_uint32) for name in ("frames", "agents", "bands", "workers", "small", "large", "slots", "most_questions")]


class _Job(ctypes.Structure):
    _fields_ = [(name, ctypes.c_uint32) for name in ("kind", "frame", "index", "question")]


class _Event(ctypes.Structure):
    _fields_ = [("kind", ctypes.c_uint32), ("worker", ctypes.c_uint32), ("job", _Job)]


class _Handle(ctypes.Structure):
    _fields_ = [("held", ctypes.c_void_p), ("is_open", ctypes.c_bool)]


def _places():
    here = Path(__file__).resolve().parent
    if "BTJOBS_LIBRARY" in os.environ:
        yield os.environ["BTJOBS_LIBRARY"]
        return
    for folder in (here, here.parents[2] / "examples" / "btjobs"):
        yield str(folder / "libbtjobs.so")
    found = ctypes.util.find_library("btjobs")
    if found:
        yield found


def _loaded():
    for place in _places():
        if os.sep not in place or os.path.exists(place):
            calls = ctypes.CDLL(place)
            for name in ("open", "take", "start", "resume", "spread", "ask", "finish", "show", "stop", "count", "events", "write_log", "read_log", "version"):
                getattr(calls, "btjobs_" + name).restype = ctypes.c_uint32
            calls.btjobs_close.restype = None
            return calls
    raise Error("libbtjobs.so isn't found: BTJOBS_LIBRARY names it")


_calls = None


def library():
    global _calls
    if _calls is None:
        _calls = _loaded()
    return _calls


def version():
    """Returns the version of the library, as (major, minor, patch)."""
    number = library().btjobs_version()
    return number // 10000, number // 100 % 100, number % 100


def _numbers(n, workers):
    return _Numbers(n.frames, n.agents, n.bands, workers, n.running, n.started, n.slots, n.most_questions)


def _told(events):
    """Events, each as (kind, worker, (kind of the job, frame, index, question))."""
    return [(e.kind, e.worker, (e.job.kind, e.job.frame, e.job.index, e.job.question)) for e in events]


def log_text(n, workers, log):
    """Returns a log as text, in bytes."""
    events = (_Event * max(1, len(log)))(*[_Event(kind, worker, _Job(*job)) for kind, worker, job in log])
    numbers, room, size = _numbers(n, workers), 256 + 40 * len(log), ctypes.c_size_t()
    while True:
        text = ctypes.create_string_buffer(room)
        status = library().btjobs_write_log(ctypes.byref(numbers), ctypes.c_uint32(n.frames), events, ctypes.c_size_t(len(log)), text, ctypes.c_size_t(room), ctypes.byref(size))
        if status == OK:
            return text.raw[:size.value]
        if status != SHORT:
            raise Error(f"a log: {TEXTS[status]}")
        room = size.value


def log_of(text):
    """Returns the numbers of a log's text, by name, and its events; or else the number of the first line that is none, from 1."""
    room = text.count(b"\n") + 1
    events, numbers, season, count = (_Event * room)(), _Numbers(), ctypes.c_uint32(), ctypes.c_size_t(1)
    status = library().btjobs_read_log(text, ctypes.c_size_t(len(text)), ctypes.byref(numbers), ctypes.byref(season), events, ctypes.c_size_t(room), ctypes.byref(count))
    if status in (LOG_HEAD, LOG_LINE):
        return count.value
    if status != OK:
        raise Error(f"a log: {TEXTS[status]}")
    return {name: getattr(numbers, name) for name, _ in _Numbers._fields_}, _told(events[:count.value])


class Board:
    """A board of the library. It is closed by `with`, or once nobody holds it."""
    def __init__(self, n, workers):
        self._calls, self._handle, self._job, self._number = library(), _Handle(), _Job(), ctypes.c_uint32()
        self._at, self._job_at, self._number_at, self._flag = ctypes.byref(self._handle), ctypes.byref(self._job), ctypes.byref(self._number), ctypes.c_bool()
        self._check(self._calls.btjobs_open(self._at, ctypes.byref(_numbers(n, workers))), f"the settings of a game: {n}")

    @staticmethod
    def _check(status, what):
        if status != OK:
            raise Error(f"{what}: {TEXTS[status]}")

    def close(self):
        self._calls.btjobs_close(self._at)

    def __enter__(self):
        return self

    def __exit__(self, *_):
        self.close()

    def __del__(self):
        if hasattr(self, "_at"):
            self.close()

    def take(self, worker):
        """Takes a job for an idle worker, as (kind, frame, index, question); None where there is none."""
        status = self._calls.btjobs_take(self._at, worker, self._job_at)
        if status == NOTHING:
            return None
        self._check(status, "take")
        return self._job.kind, self._job.frame, self._job.index, self._job.question

    def take_up(self, worker, kind, frame, index, question):
        """Takes up this very job, new or ready. False where the worker may not."""
        job = self._job
        job.kind, job.frame, job.index, job.question = kind, frame, index, question
        status = self._calls.btjobs_start(self._at, worker, self._job_at)
        if status == ILLEGAL:
            status = self._calls.btjobs_resume(self._at, worker, self._job_at, self._number_at)
        if status == ILLEGAL:
            return False
        self._check(status, "start")
        return True

    def spread(self, worker):
        self._check(self._calls.btjobs_spread(self._at, worker, ctypes.byref(self._flag)), "spread")
        return self._flag.value

    def ask(self, worker):
        self._check(self._calls.btjobs_ask(self._at, worker, self._job_at), "a think asks (more than settings.most_questions?)")

    def finish(self, worker):
        self._check(self._calls.btjobs_finish(self._at, worker), "finish")

    def show(self):
        """Shows the next frame, and returns it; None where it can't be yet."""
        return self._number.value if self._calls.btjobs_show(self._at, self._number_at) == OK else None

    def stop(self):
        self._calls.btjobs_stop(self._at)

    def log(self):
        """Returns all events, as (kind, worker, (kind of the job, frame, index, question))."""
        count = ctypes.c_size_t()
        self._calls.btjobs_count(self._at, ctypes.byref(count))
        events = (_Event * max(1, count.value))()
        self._calls.btjobs_events(self._at, ctypes.c_size_t(0), events, count, ctypes.byref(count))
        return _told(events[:count.value])
