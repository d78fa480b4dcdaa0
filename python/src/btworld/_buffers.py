"""Texts that go into calls, and what calls write into buffers."""
from __future__ import annotations

import ctypes
import json
import os
from typing import Any, Callable, Mapping, Union

from .errors import Status, raise_for

# Bytes or text, or the path of a file. A str is always the text itself.
Text = Union[bytes, str, "os.PathLike[str]"]


def bytes_of(source: Text | Mapping[str, Any]) -> bytes:
    if isinstance(source, os.PathLike):
        with open(source, "rb") as file:
            return file.read()
    if isinstance(source, Mapping):
        return json.dumps(source).encode()
    return source.encode() if isinstance(source, str) else bytes(memoryview(source))


def written(call: Callable[..., int], *given: Any, room: int = 1024, allowed: tuple[int, ...] = ()) -> bytes:
    """What a call writes into a buffer and how much that is; it is called again where it asks for more room."""
    size = ctypes.c_size_t(0)
    buffer = ctypes.create_string_buffer(room)
    while (status := call(*given, buffer, len(buffer), size)) == Status.SHORT:
        buffer = ctypes.create_string_buffer(size.value)
    if status not in allowed:
        raise_for(status)
    return ctypes.string_at(buffer, size.value)
