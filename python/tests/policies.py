"""The policies and judges of test_sweep."""
import os
import signal
import time
from pathlib import Path

from btworld.sweep import policy_of

_turn = policy_of("random")


def greedy(game, letters, dice):
    """The first signal with which A's tree doesn't fail."""
    return next((it for it in letters if game.nodes(it, "A")[0] != 1), "")


def slow(game, letters, dice):
    time.sleep(0.0005)
    return _turn(game, letters, dice)


def dies(game, letters, dice):
    """As `random`, but the process that finds the mark first is killed."""
    mark = Path(os.environ["BTWORLD_TEST_MARK"])
    if game.frame == 9 and mark.exists():
        try:
            mark.unlink()
        except FileNotFoundError:
            return _turn(game, letters, dice)
        os.kill(os.getpid(), signal.SIGKILL)
    return _turn(game, letters, dice)


def even(game):
    return "the digest is even" if game.digest() % 2 == 0 else ""
