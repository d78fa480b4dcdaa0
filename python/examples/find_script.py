"""Finds a script that leads a thief through an airlock and back, and plays it."""
from pathlib import Path

from btworld import Game
from btworld.search import script_of, search

level = Path("levels/airlock.json")
found = search(Game.open(level), "ab", "A . 1,1 [*]", frames=60)
script = script_of(found.signals)
print(f"{found.frames} frames, {found.forks} games forked")
print(script, end="")

game = Game.open(level, script)
for _ in range(found.frames):
    game.step_script()
print(game.text(), end="")
assert game == found.game
