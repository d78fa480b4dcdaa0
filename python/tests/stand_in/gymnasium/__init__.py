"""What of Gymnasium the environments meet, written after its documentation: for tests where it isn't installed."""
from . import spaces, vector
from .utils.seeding import np_random

registry = {}


def register(id, entry_point, vector_entry_point=None, **kwargs):
    registry[id] = entry_point


def make(id, **kwargs):
    module, _, name = registry[id].partition(":")
    return getattr(__import__(module, fromlist=[name]), name)(**kwargs)


class Env:
    metadata = {"render_modes": []}
    render_mode = None
    spec = None
    _np_random = None
    _np_random_seed = None

    def reset(self, *, seed=None, options=None):
        if seed is not None:
            self._np_random, self._np_random_seed = np_random(seed)

    def step(self, action):
        raise NotImplementedError

    def render(self):
        raise NotImplementedError

    def close(self):
        pass

    @property
    def unwrapped(self):
        return self

    @property
    def np_random(self):
        if self._np_random is None:
            self._np_random, self._np_random_seed = np_random()
        return self._np_random

    def __enter__(self):
        return self

    def __exit__(self, *_):
        self.close()
