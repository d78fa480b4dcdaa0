"""The spaces of actions and observations: Gymnasium's where that is installed, else classes of the same shape.

These sample by Python's own generator, and work without numpy, with memoryviews in place of arrays."""
from __future__ import annotations

import random
from typing import Any, Dict as Map, Tuple, Union

try:
    import numpy
except ImportError:
    numpy = None  # type: ignore[assignment]

try:
    from gymnasium.spaces import Box, Dict, Discrete, MultiBinary, MultiDiscrete
except ImportError:

    class Space:
        def __init__(self, shape: tuple[int, ...] | None, dtype: str | None, seed: int | None = None) -> None:
            self.shape = shape
            self.dtype = numpy.dtype(dtype) if numpy and dtype else dtype
            self.seed(seed)

        def seed(self, seed: int | None = None) -> list[int | None]:
            self._generator = random.Random(seed)
            return [seed]

        def sample(self) -> Any:
            raise NotImplementedError

        def contains(self, x: Any) -> bool:
            raise NotImplementedError

        def __contains__(self, x: Any) -> bool:
            return self.contains(x)

        def _key(self) -> tuple[Any, ...]:
            return self.shape, str(self.dtype)

        def __eq__(self, other: object) -> bool:
            return type(self) is type(other) and self._key() == other._key()  # type: ignore[attr-defined]

        def __repr__(self) -> str:
            return f"{type(self).__name__}{self._key()}"

    class Discrete(Space):  # type: ignore[no-redef]
        """The integers from 0 to n - 1."""

        def __init__(self, n: int, seed: int | None = None) -> None:
            self.n, self.start = n, 0
            super().__init__((), "int64", seed)

        def sample(self) -> int:
            return self._generator.randrange(self.n)

        def contains(self, x: Any) -> bool:
            return hasattr(x, "__index__") and getattr(x, "shape", ()) == () and 0 <= int(x) < self.n

        def _key(self) -> tuple[Any, ...]:
            return (self.n,)

    class _Ranged(Space):
        """Arrays of integers from `_low` to `_high`."""

        _low, _high = 0, 1

        def sample(self) -> Any:
            count, size = 1, {"int64": 8, "uint16": 2}.get(str(self.dtype), 1)
            for it in self.shape or ():
                count *= it
            drawn = (self._generator.randint(self._low, self._high).to_bytes(size, "little") for _ in range(count))
            return array(bytearray(b"".join(drawn)), self.shape or (), str(self.dtype))

        def contains(self, x: Any) -> bool:
            if getattr(x, "shape", None) != self.shape or _dtype_of(x) != str(self.dtype):
                return False
            flat = x.ravel().tolist() if hasattr(x, "ravel") else memoryview(x).cast("B").cast(x.format).tolist()
            return not flat or (min(flat) >= self._low and max(flat) <= self._high)

    class MultiBinary(_Ranged):  # type: ignore[no-redef]
        """Arrays of bits."""

        def __init__(self, n: Union[int, Tuple[int, ...]], seed: int | None = None) -> None:
            self.n = n
            super().__init__(n if isinstance(n, tuple) else (n,), "int8", seed)

        def contains(self, x: Any) -> bool:
            if isinstance(x, (list, tuple)):
                return self.shape == (len(x),) and all(it in (0, 1) for it in x)
            flat = x.ravel().tolist() if hasattr(x, "ravel") else list(x) if hasattr(x, "shape") else [None]
            return getattr(x, "shape", None) == self.shape and all(it in (0, 1) for it in flat)

    class MultiDiscrete(_Ranged):  # type: ignore[no-redef]
        """Arrays of integers from 0 to n - 1, one for each environment."""

        def __init__(self, nvec: list[int], seed: int | None = None) -> None:
            self.nvec, self._high = nvec, nvec[0] - 1
            super().__init__((len(nvec),), "int64", seed)

    class Box(_Ranged):  # type: ignore[no-redef]
        """Arrays of integers from low to high."""

        def __init__(self, low: int, high: int, shape: tuple[int, ...], dtype: str, seed: int | None = None) -> None:
            self._low, self._high = low, high
            if numpy:
                self.low, self.high = numpy.full(shape, low, dtype), numpy.full(shape, high, dtype)
            super().__init__(shape, dtype, seed)

        def _key(self) -> tuple[Any, ...]:
            return self._low, self._high, self.shape, str(self.dtype)

    class Dict(Space):  # type: ignore[no-redef]
        """A space for each key."""

        def __init__(self, spaces: Map[str, Any], seed: int | None = None) -> None:
            self.spaces = dict(spaces)
            super().__init__(None, None, seed)

        def seed(self, seed: int | None = None) -> list[int | None]:
            return [it.seed(None if seed is None else seed + k)[0] for k, it in enumerate(self.spaces.values())]

        def sample(self) -> Map[str, Any]:
            return {key: it.sample() for key, it in self.spaces.items()}

        def contains(self, x: Any) -> bool:
            return isinstance(x, dict) and x.keys() == self.spaces.keys() and all(x[key] in it for key, it in self.spaces.items())

        def __getitem__(self, key: str) -> Any:
            return self.spaces[key]

        def _key(self) -> tuple[Any, ...]:
            return (self.spaces,)


_FORMATS = {"uint8": "B", "int8": "b", "uint16": "H", "int64": "q"}


def array(room: bytearray, shape: tuple[int, ...], dtype: str) -> Any:
    """The bytes as an array: numpy's where that is installed, else a memoryview, which numpy takes without a copy."""
    if numpy:
        return numpy.frombuffer(room, dtype).reshape(shape)
    return memoryview(room).cast(_FORMATS[dtype], shape) if all(shape) else memoryview(room).cast(_FORMATS[dtype])


def _dtype_of(x: Any) -> str:
    if isinstance(x, memoryview):
        return {form: dtype for dtype, form in _FORMATS.items()}.get(x.format, "")
    return str(getattr(x, "dtype", ""))


__all__ = ["Box", "Dict", "Discrete", "MultiBinary", "MultiDiscrete", "array"]
