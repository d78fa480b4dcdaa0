"""The shared library and its calls, by ctypes: one name here for each call of btworld.h, without the prefix.

Loaded is what BTWORLD_LIBRARY names; where that is not set, the first of these that exists: the library inside the installed package,
`dist/` of the checkout that this file is in, `examples/` there (where `make -C examples` builds it), and the system's own."""
from __future__ import annotations

import ctypes
import os
from ctypes.util import find_library
from pathlib import Path
from typing import Any, Callable, cast

LETTERS = "abcdefghijklmnopqrstuvwxyz"
NOBODY = 255
FILE = "libbtworld.so.2"
OLDEST = 20000


class Handle(ctypes.Structure):
    """A game's handle: closed at first, and closed again when its last reference goes. ctypes refuses to copy it."""

    _fields_ = [("at", ctypes.c_void_p), ("is_open", ctypes.c_bool)]


class AgentState(ctypes.Structure):
    _fields_ = [("x", ctypes.c_uint32), ("y", ctypes.c_uint32), ("carrying", ctypes.c_bool), ("status", ctypes.c_uint8)]


class CellState(ctypes.Structure):
    _fields_ = [("mark", ctypes.c_uint8), ("item", ctypes.c_bool), ("agent", ctypes.c_uint8)]


class IntentState(ctypes.Structure):
    _fields_ = [("node", ctypes.c_uint32), ("x", ctypes.c_uint32), ("y", ctypes.c_uint32), ("deed", ctypes.c_uint8),
                ("direction", ctypes.c_uint8), ("agent", ctypes.c_uint8), ("granted", ctypes.c_bool)]  # fmt: skip


class WayState(ctypes.Structure):
    _fields_ = [("steps", ctypes.c_uint32), ("direction", ctypes.c_uint32)]


class LibraryTooOldError(NotImplementedError):
    """A call that the loaded library does not have yet."""


def find() -> str:
    """The path, or the loader's name, of the library."""
    here = Path(__file__).resolve()
    places = [here.with_name(FILE)]
    if here.parts[-4:-1] == ("python", "src", "btworld"):
        places += [here.parents[3] / folder / FILE for folder in ("dist", "examples")]
    path = os.environ.get("BTWORLD_LIBRARY") or next((str(it) for it in places if it.exists()), None) or find_library("btworld")
    if not path:
        raise ImportError(f"no {FILE} found: set BTWORLD_LIBRARY to its path, or build it with `make -C examples`")
    return path


def dotted(version: int) -> str:
    """
    >>> dotted(20103)
    '2.1.3'
    """
    return f"{version // 10000}.{version // 100 % 100}.{version % 100}"


def _required(name: str, *arguments: Any, result: Any = ctypes.c_uint32) -> Callable[..., int]:
    call = getattr(_library, f"btworld_{name}")
    call.argtypes, call.restype = arguments, result
    return cast(Callable[..., int], call)


def _since(release: str, name: str, *arguments: Any) -> Callable[..., int]:
    """A call that older libraries lack: there it raises LibraryTooOldError."""
    if exports(name):
        return _required(name, *arguments)

    def missing(*_: Any) -> int:
        raise LibraryTooOldError(f"btworld_{name} needs version {release} of the library; {PATH} is version {dotted(version())}")

    return missing


def exports(name: str) -> bool:
    """Whether the loaded library has this call."""
    return hasattr(_library, f"btworld_{name}")


PATH = find()
_library = ctypes.CDLL(PATH)
_SIZE, _GAME, _NUMBER = ctypes.POINTER(ctypes.c_size_t), ctypes.POINTER(Handle), ctypes.POINTER(ctypes.c_uint32)
_BYTES = (ctypes.c_char_p, ctypes.c_size_t)
_ARRAY = (ctypes.c_void_p, ctypes.c_size_t)
_ROOM = (*_ARRAY, _SIZE)

version = _required("version")
if not OLDEST <= version() < 30000:
    raise ImportError(f"{PATH} is version {dotted(version())}: wanted is 2.0.0 or a later 2.x")
check = _required("check", *_BYTES)
fault_text = _required("fault_text", *_BYTES, *_BYTES, *_ROOM)
open_script = _required("open_script", _GAME, *_BYTES, *_BYTES)
load = _required("load", _GAME, *_BYTES, *_BYTES)
step = _required("step", _GAME, ctypes.c_uint32)
step_script = _required("step_script", _GAME)
text = _required("text", _GAME, *_ROOM)
agent = _required("agent", _GAME, ctypes.c_uint32, ctypes.POINTER(AgentState))
map = _required("map", _GAME, _NUMBER, _NUMBER, _NUMBER)
cell = _required("cell", _GAME, ctypes.c_uint32, ctypes.c_uint32, ctypes.POINTER(CellState))
memory = _required("memory", _GAME, ctypes.c_uint32, *_ROOM)
nodes = _required("nodes", _GAME, ctypes.c_uint32, ctypes.c_uint32, *_ROOM)
signals = _required("signals", _GAME, _NUMBER, _NUMBER)
script = _required("script", _GAME, *_ROOM)
frame = _required("frame", _GAME, _NUMBER)
fork = _required("fork", _GAME, _GAME)
same = _required("same", _GAME, _GAME, ctypes.POINTER(ctypes.c_bool))
digest = _required("digest", _GAME, ctypes.POINTER(ctypes.c_uint64))
level_digest = _required("level_digest", _GAME, ctypes.POINTER(ctypes.c_uint64))
state = _required("state", _GAME, *_ROOM)
close = _required("close", _GAME, result=None)
replay = _required("replay", *_BYTES, *_BYTES, *_BYTES, *_ROOM, _NUMBER)
log_frames = _required("log_frames", *_BYTES, *_BYTES, *_BYTES, _NUMBER, ctypes.POINTER(ctypes.c_uint64))
complete = _required("complete", *_BYTES, *_BYTES, *_BYTES, *_ROOM)

cells = _since("2.1.0", "cells", _GAME, *_ROOM)
agents = _since("2.1.0", "agents", _GAME, *_ROOM)
run = _since("2.1.0", "run", _GAME, *_ARRAY, _SIZE)
step_all = _since("2.1.0", "step_all", *_ARRAY, *_ARRAY, _SIZE)
look_all = _since("2.1.0", "look_all", *_ARRAY, *_ARRAY, *_ARRAY)
load_script = _since("2.1.0", "load_script", _GAME, *_BYTES, *_BYTES, *_BYTES)
why = _since("2.1.0", "why", _GAME, ctypes.c_uint32, ctypes.c_uint32, *_ROOM)
intent = _since("2.1.0", "intent", _GAME, ctypes.c_uint32, ctypes.c_uint32, ctypes.POINTER(IntentState))
way = _since("2.1.0", "way", _GAME, ctypes.c_uint32, ctypes.c_uint32, ctypes.c_uint32, ctypes.POINTER(WayState))
explain = _since("2.1.0", "explain", *_BYTES, *_BYTES, *_ROOM)
node_names = _since("2.1.0", "node_names", _GAME, ctypes.c_uint32, *_ROOM)


def _close_handle(handle: Handle, close: Callable[..., Any] = close) -> None:
    # `close` is a default argument because the module's names may be gone when the interpreter ends. A handle inside an array is
    # closed by whoever owns the array.
    if handle._b_base_ is None:
        close(handle)


Handle.__del__ = _close_handle  # type: ignore[attr-defined]
