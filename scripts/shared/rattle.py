"""How the kit's `rattle` is told to check or to build a crate over libraries that stand built."""
import shutil
from functools import lru_cache
from pathlib import Path

import crates


@lru_cache(None)
def kit():
    """Returns the kit's folder, or None where `rattle` isn't on the path."""
    compiler = shutil.which("rattle")
    return Path(compiler).resolve().parent.parent if compiler else None


def proofs(name):
    """Returns the words for the logic in which a crate is proved."""
    return ["--antt-project", f"{kit()}/rattle/logic/antt-project.json", "--logic-built", f"{kit()}/logic_built", "--links", f"{name}="]


def words(what, name, place, root="lib", more=()):
    """Returns the words of `rattle check` or `rattle build` of a crate. `place` tells the folder of a library of the repository."""
    needs = crates.needs()
    found = [what, "--crate-name", name, f"src/{root}.rt", *more, "--extern", f"std={kit()}/rlibs/std.rlib"]
    for library in needs[name]:
        found += ["--extern", f"{library}={place(library) if library in needs else kit() / 'rlibs'}/{library}.rlib"]
    for folder in [kit() / "rlibs", *map(place, crates.below(name))]:
        found += ["-L", f"dependency={folder}"]
    return found + proofs(name)
