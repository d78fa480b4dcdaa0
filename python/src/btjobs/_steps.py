"""Steps of an order: a job's work from where it is taken up to where it is told; or the showing of a frame."""
import hashlib
from collections import namedtuple

from ._library import ANSWER, ASK, DRAW, EMIT, FINISH, SHOW, SPREAD, THINK, TURN


class Step(namedtuple("Step", "frame rank index part")):
    """A step by its name. Steps are sorted as the plain order has them: frame by frame the input (rank 0), each think with all its answers
    before the next think (1), the turn (2), the draws (3), the showing (4). `part` counts a think's parts and its answers by turns."""
    __slots__ = ()

    @property
    def kind(self):
        return (TURN, ANSWER if self.part % 2 else THINK, TURN, DRAW, SHOW)[self.rank]

    @property
    def question(self):
        return 1 if self.rank == 2 else self.part // 2

    def __str__(self):
        frame, rank, index, part = self
        if rank in (0, 2):
            return f"the {'turn' if rank else 'input'} of frame {frame}"
        if rank == 1 and part % 2:
            return f"answer {frame} {index} {part // 2}"
        if rank == 1:
            return f"think {frame} {index}" + (f" after {part // 2} answer{'s' * (part > 2)}" if part else "")
        return f"draw {frame} {index}" if rank == 3 else f"the showing of frame {frame}"

    def json(self):
        kind = ("input", "answer" if self.part % 2 else "think", "turn", "draw", "show")[self.rank]
        return {"name": str(self), "kind": kind, "frame": self.frame, "index": self.index, "question": self.question}


def came(x):
    """Returns what a job came to, as text that doesn't depend on the order of a set, or on the address of an object that says what it holds."""
    if x is None or isinstance(x, (int, str, bytes)):
        return repr(x)
    if isinstance(x, float):
        return x.hex() + f" ({x!r})" if x == x else "nan"
    if isinstance(x, dict):
        return "{" + ", ".join(sorted(came(k) + ": " + came(v) for k, v in x.items())) + "}"
    if isinstance(x, (set, frozenset)):
        return "{" + ", ".join(sorted(map(came, x))) + "}"
    if isinstance(x, (list, tuple)):
        return "[" + ", ".join(map(came, x)) + "]"
    if hasattr(x, "tobytes"):
        return f"{type(x).__name__} {hashlib.blake2b(x.tobytes(), digest_size=8).hexdigest()} {x!r}"
    if type(x).__repr__ is object.__repr__ and hasattr(x, "__dict__"):
        return type(x).__name__ + came(vars(x))
    return repr(x)


def order_of(log):
    """Returns the steps of a log, each where it was told, with its worker."""
    asked, order = {}, []
    for event, worker, (kind, frame, index, question) in log:
        if event == EMIT:
            order.append((Step(frame, 4, 0, 0), 0))
        if event not in (ASK, SPREAD, FINISH):
            continue
        if kind == TURN:
            s = Step(frame, 2 if event == FINISH else 0, 0, 0)
        elif kind == ANSWER:
            s = Step(frame, 1, index, 2 * question + 1)
        elif kind == DRAW:
            s = Step(frame, 3, index, 0)
        else:
            at = asked.get((frame, index), 0)
            asked[frame, index] = at + 1
            s = Step(frame, 1, index, 2 * at)
        order.append((s, worker))
    return order
