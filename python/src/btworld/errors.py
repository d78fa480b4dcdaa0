"""What the calls raise."""
from __future__ import annotations

from enum import IntEnum

from ._library import LibraryTooOldError

# The numbers of `enum btworld_status`.
Status = IntEnum("Status", {
    "OK": 0, "NO_MEMORY": 1, "CLOSED": 2, "OPEN": 3, "NO_FRAME": 4, "SHORT": 5, "NO_AGENT": 6, "LAST_FRAME": 7, "NO_CELL": 8,
    "LONG": 9, "NO_PLACE": 10,
    "LEVEL_JSON": 16, "LEVEL_SHAPE": 17, "LEVEL_MAP_SIZE": 18, "LEVEL_MAP_CHAR": 19, "LEVEL_LETTERS": 20, "LEVEL_AGENT_COUNT": 21,
    "LEVEL_BAD_TREE": 22, "LEVEL_NO_TREE": 23, "LEVEL_NO_PLACE": 24, "LEVEL_NO_AGENT": 25,
    "SCRIPT_LINE": 32, "SCRIPT_ORDER": 33,
    "LOG_HEAD": 48, "LOG_LINE": 49, "LOG_ILLEGAL": 50, "LOG_INCOMPLETE": 51, "LOG_STOPPED": 52,
    "STATE_TEXT": 64, "STATE_LEVEL": 65, "STATE_WORLD": 66,
})  # fmt: skip

# The texts of btworld_status_text.
_TEXTS = {
    Status.CLOSED: "the handle holds no game",
    Status.NO_FRAME: "no frame was stepped yet",
    Status.NO_AGENT: "there is no such agent",
    Status.LAST_FRAME: "the last frame was stepped",
    Status.NO_CELL: "there is no such cell",
    Status.LONG: "a signal changed after frame 9999",
    Status.NO_PLACE: "there is no such place",
    Status.LOG_HEAD: "log: head",
    Status.LOG_LINE: "log: a faulty line",
    Status.LOG_ILLEGAL: "log: illegal event",
    Status.LOG_INCOMPLETE: "log: incomplete",
    Status.LOG_STOPPED: "log: stopped",
    Status.STATE_TEXT: "state: no text of a state",
    Status.STATE_LEVEL: "state: of another level",
    Status.STATE_WORLD: "state: no world of the level",
}


class BtworldError(Exception):
    """A call of the library that failed. `status` says why.

    >>> str(BtworldError(Status.CLOSED))
    'the handle holds no game'
    """

    def __init__(self, status: int, message: str = "") -> None:
        self.status = Status(status)
        super().__init__(message or _TEXTS.get(self.status, self.status.name))

    def __reduce__(self) -> tuple[type[BtworldError], tuple[int, str]]:
        return type(self), (int(self.status), str(self))


class LevelError(BtworldError, ValueError):
    """A level that is refused. The message is the line that `btworld` writes of its first fault."""


class ScriptError(BtworldError, ValueError):
    """A script that is refused. The message is the line that `btworld` writes of its first fault."""


class LogError(BtworldError, ValueError):
    """A log that is refused."""


class StateError(BtworldError, ValueError):
    """A text that is no state of the level."""


def raise_for(status: int, message: str = "") -> None:
    """Raise what a status stands for; nothing for OK."""
    if status == Status.OK:
        return
    if status == Status.NO_MEMORY:
        raise MemoryError
    kinds = ((Status.STATE_TEXT, StateError), (Status.LOG_HEAD, LogError), (Status.SCRIPT_LINE, ScriptError), (Status.LEVEL_JSON, LevelError))
    raise next((kind for first, kind in kinds if status >= first), BtworldError)(status, message)


__all__ = ["BtworldError", "LevelError", "LibraryTooOldError", "LogError", "ScriptError", "StateError", "Status", "raise_for"]
