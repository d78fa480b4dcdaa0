"""Bug reports that check themselves."""
from __future__ import annotations

import json
from typing import NamedTuple

from .game import Game
from .level import Level


class Report(NamedTuple):
    """A level, a script, a frame and the digests of level and state: whoever plays the script to that frame can compare.

    >>> game = Game.open({"map": ["Aa0"], "agents": ["t"], "trees": {"t": ["move", "0"]}})
    >>> game.run(["", "a"])
    2
    >>> report = Report.of(game, "A is slow")
    >>> report.difference(), report.game() == game
    ('', True)
    >>> Report.read(report.text()) == report
    True
    >>> report._replace(frame=1).difference()
    'frame 1: the state here is cd4d43fc56c209ac, in the report 65d92aa5eac32e8d'
    """

    level: Level
    script: str
    frame: int
    level_digest: str
    digest: str
    why: str

    @classmethod
    def of(cls, game: Game, why: str) -> Report:
        """The report of a game as it stands. ValueError: the game was loaded, so that no script leads to it."""
        if not game.has_whole_script:
            raise ValueError("no script leads to a game that was loaded from a state: a report can't play it again")
        return cls(game.level, game.script(), game.frame, f"{game.level_digest():016x}", f"{game.digest():016x}", why)

    @classmethod
    def read(cls, text: str | bytes) -> Report:
        """The report that `text` wrote. ValueError: it is none."""
        told = json.loads(text)
        if not isinstance(told, dict) or set(told) != set(cls._fields):
            raise ValueError(f"a report is a JSON object of {', '.join(cls._fields)}")
        return cls(Level(told.pop("level")), **told)

    def text(self) -> str:
        """The report as JSON."""
        return json.dumps({**self._asdict(), "level": self.level.source.decode()}, indent=1) + "\n"

    def game(self) -> Game:
        """The game at the report's frame, played again."""
        game = self.level.open(self.script)
        for _ in range(self.frame):
            game.step_script()
        return game

    def difference(self) -> str:
        """What comes out otherwise here; empty where all is the same."""
        if f"{self.level.digest:016x}" != self.level_digest:
            return f"the level here is {self.level.digest:016x}, in the report {self.level_digest}"
        with self.game() as game:
            if f"{game.digest():016x}" != self.digest:
                return f"frame {self.frame}: the state here is {game.digest():016x}, in the report {self.digest}"
        return ""
