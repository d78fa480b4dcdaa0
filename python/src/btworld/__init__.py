"""btworld: a deterministic grid world of agents with behaviour trees, stepped frame by frame.

`Level` and `Game` are the calls of btworld.h, `btworld.logs` those on logs. `btworld.environments` has levels as Gymnasium and PettingZoo
environments, `btworld.search` finds scripts, and `btworld.sweep` plays many games on many processors or machines."""
from ._library import dotted as _dotted, version as _version
from .errors import BtworldError, LevelError, LibraryTooOldError, LogError, ScriptError, StateError, Status
from .game import Game
from .goal import LineGoal
from .level import Level, explain, fault_text
from .logs import Replay, complete, log_frames, replay
from .report import Report
from .signals import Signals, letters_of, mask_of
from .view import Agent, Answer, Cell, Deed, Direction, Intent, Size, View, Way

# The version of the library that was loaded: that of the package, which is built with its library.
__version__ = _dotted(_version())

__all__ = [
    "Agent", "Answer", "BtworldError", "Cell", "Deed", "Direction", "Game", "Intent", "Level", "LevelError", "LibraryTooOldError",
    "LineGoal", "LogError", "Replay", "Report", "ScriptError", "Signals", "Size", "StateError", "Status", "View", "Way", "complete",
    "explain", "fault_text", "letters_of", "log_frames", "mask_of", "replay",
]  # fmt: skip
