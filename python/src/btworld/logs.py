"""Logs of `btworld play --log`, replayed and completed.

>>> level = {"map": ["A.0"], "agents": ["t"], "trees": {"t": ["move", "0"]}}
>>> log = complete(level, "btworld log 2 frames 2 workers 1 small 2 large 3 slots 1\\n")
>>> print(replay(level, log).text, end="")
frame 1
.A0
A R 1,0 -
frame 2
..A
A R 2,0 -
>>> broken_off = log[: log.index("emit 2")]
>>> replay(level, broken_off)[1:], complete(level, broken_off) == log
((1, False), True)
"""
from __future__ import annotations

import ctypes
from typing import NamedTuple

from . import _library as library
from ._buffers import Text, bytes_of, written
from .errors import LogError, Status, raise_for
from .level import Source, Level, raise_refusal


class Replay(NamedTuple):
    """The frames that a log shows. `is_complete` is False where it is of more frames than it shows."""

    text: str
    frames: int
    is_complete: bool


def log_frames(source: Source, log: Text, script: Text = b"") -> tuple[int, bool]:
    """How many frames a log shows, and whether these are all that it is of. It takes as long as `replay`.

    LogError: the log is refused. Its message has the number of an event that isn't legal, counted from 0.

    >>> log_frames({"map": ["."], "agents": [], "trees": {}}, "btworld log 2 frames 1 workers 1 small 2 large 3 slots 1\\n0 start 9\\n")
    Traceback (most recent call last):
    btworld.errors.LogError: log: a faulty line
    """
    files = _files(source, script, log)
    frames, event = ctypes.c_uint32(), ctypes.c_uint64()
    status = library.log_frames(*files, frames, event)
    if status == Status.LOG_ILLEGAL:
        raise LogError(status, f"log: illegal event {event.value}")
    _raise_for(status, files, source)
    return frames.value, status == Status.OK


def replay(source: Source, log: Text, script: Text = b"") -> Replay:
    """The frames that a log shows of a level and a script, as `btworld replay` writes them. LogError: the log is refused."""
    frames, is_complete = log_frames(source, log, script)
    width, height, _ = Level.of(source).map
    count, allowed = ctypes.c_uint32(), (Status.LOG_INCOMPLETE,)
    files = _files(source, script, log)
    room = frames * ((width + 1) * height + 381)
    text = written(lambda *it: library.replay(*files, *it, count), room=room, allowed=allowed)
    return Replay(text.decode(), frames, is_complete)


def complete(source: Source, log: Text, script: Text = b"") -> str:
    """The log of a complete run that begins with the events of a log that broke off after a line feed. LogError: the log is refused."""
    files, size = _files(source, script, log), ctypes.c_size_t()
    nothing = ctypes.create_string_buffer(0)
    status = library.complete(*files, nothing, 0, size)
    if status != Status.SHORT:
        _raise_for(status, files, source)
    return written(lambda *it: library.complete(*files, *it), room=size.value).decode()


def _files(source: Source, script: Text, log: Text) -> tuple[bytes, int, bytes, int, bytes, int]:
    level = source.source if isinstance(source, Level) else bytes_of(source)
    lines, events = bytes_of(script), bytes_of(log)
    return level, len(level), lines, len(lines), events, len(events)


def _raise_for(status: int, files: tuple[bytes, int, bytes, int, bytes, int], source: Source) -> None:
    if Status.LEVEL_JSON <= status < Status.LOG_HEAD:
        raise_refusal(status, files[0], files[2], source)
    if status != Status.LOG_INCOMPLETE:
        raise_for(status)
