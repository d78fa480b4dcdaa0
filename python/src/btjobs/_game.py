"""What a game is."""
from collections import namedtuple
from dataclasses import dataclass


@dataclass(frozen=True)
class Settings:
    """The numbers of a run."""
    frames: int = 4          #: at most 9999
    agents: int = 1          #: thinks of a frame: any number
    bands: int = 0           #: draws of a frame: any number
    most_questions: int = 0  #: that one think may ask in a frame
    slots: int = 3           #: frames under way at once, 1 to 16
    started: int = 64        #: turns and thinks that may have begun and not be over, 2 to 64
    running: int = 64        #: answers and draws that may run at once, 1 to 64


#: All that a think and its answers may read. Frames count from 1, agents from 0.
View = namedtuple("View", "frame agent world signals")
#: All that a turn may read besides the thoughts.
Start = namedtuple("Start", "frame world signals")


class Ask:
    """What a think comes to that wants an answer first."""
    def __init__(self, question):
        self.question = question


class Game:
    """A game, frame by frame. Each function is one of its arguments: that is the game's to keep."""
    def start(self):
        """The first world: all that lives from frame to frame."""
        return None

    def signals(self, frame):
        """A frame's input."""
        return None

    def think(self, view, answers):
        """A thought, or Ask(question)."""
        return None

    def answer(self, view, question):
        raise NotImplementedError("a game whose thinks ask has `answer`")

    def turn(self, start, thoughts):
        """The next world, of all thoughts by agent."""
        return thoughts

    def draw(self, world, band):
        return None

    def show(self, frame, bands):
        """For the finder: what is shown of a frame, where that is more than its bands in order."""
        return None
