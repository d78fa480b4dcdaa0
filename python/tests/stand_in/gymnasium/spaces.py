from collections.abc import Sequence

import numpy as np

from .utils.seeding import np_random


class Space:
    def __init__(self, shape=None, dtype=None, seed=None):
        self._shape = None if shape is None else tuple(shape)
        self.dtype = None if dtype is None else np.dtype(dtype)
        self._np_random = None
        if seed is not None:
            self.seed(seed)

    @property
    def shape(self):
        return self._shape

    @property
    def np_random(self):
        if self._np_random is None:
            self.seed()
        return self._np_random

    def seed(self, seed=None):
        self._np_random, seed = np_random(seed)
        return seed

    def __contains__(self, x):
        return self.contains(x)


class Box(Space):
    def __init__(self, low, high, shape=None, dtype=np.float32, seed=None):
        super().__init__(shape, dtype, seed)
        self.low, self.high = np.full(shape, low, dtype), np.full(shape, high, dtype)

    def sample(self):
        return self.np_random.integers(self.low, self.high, endpoint=True, dtype=np.int64).astype(self.dtype)

    def contains(self, x):
        if not isinstance(x, np.ndarray):
            return False
        fits = np.can_cast(x.dtype, self.dtype) and x.shape == self.shape
        return bool(fits and np.all(x >= self.low) and np.all(x <= self.high))


class Discrete(Space):
    def __init__(self, n, seed=None, start=0):
        self.n, self.start = np.int64(n), np.int64(start)
        super().__init__((), np.int64, seed)

    def sample(self):
        return self.start + self.np_random.integers(self.n)

    def contains(self, x):
        if not isinstance(x, int) and not (isinstance(x, (np.generic, np.ndarray)) and np.issubdtype(x.dtype, np.integer) and x.shape == ()):
            return False
        return bool(self.start <= int(x) < self.start + self.n)


class MultiDiscrete(Space):
    def __init__(self, nvec, seed=None):
        self.nvec = np.array(nvec, np.int64)
        super().__init__(self.nvec.shape, np.int64, seed)

    def sample(self):
        return self.np_random.integers(0, self.nvec)

    def contains(self, x):
        return bool(isinstance(x, np.ndarray) and x.shape == self.shape and x.dtype.kind in "iu" and np.all((0 <= x) & (x < self.nvec)))


class MultiBinary(Space):
    def __init__(self, n, seed=None):
        self.n = n
        super().__init__(n if isinstance(n, tuple) else (n,), np.int8, seed)

    def sample(self):
        return self.np_random.integers(0, 2, self.n, dtype=self.dtype)

    def contains(self, x):
        x = np.array(x) if isinstance(x, Sequence) else x
        return bool(isinstance(x, np.ndarray) and x.shape == self.shape and np.all((x == 0) | (x == 1)))


class Dict(Space):
    def __init__(self, spaces, seed=None):
        self.spaces = dict(spaces)
        super().__init__(None, None, seed)

    def seed(self, seed=None):
        return {key: it.seed(seed) for key, it in self.spaces.items()}

    def sample(self):
        return {key: it.sample() for key, it in self.spaces.items()}

    def contains(self, x):
        return isinstance(x, dict) and x.keys() == self.spaces.keys() and all(x[key] in it for key, it in self.spaces.items())
