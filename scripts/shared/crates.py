"""What crates.txt says: the crates of this repository by their groups, and the libraries that each uses. Without Python, programs/sums.sh
reads it too, for the launcher."""
from functools import lru_cache
from pathlib import Path

TOP = Path(__file__).resolve().parents[2]


@lru_cache(None)
def lines():
    """Returns of each crate its group, its name, and the libraries that it names, in the file's order."""
    found, group = [], ""
    for line in (TOP / "crates.txt").read_text().splitlines():
        name, colon, libraries = line.partition("#")[0].partition(":")
        if line.startswith("#"):
            group = line.lstrip("# ")
        elif colon:
            found.append((group, name.split()[0], libraries.split()))
    return found


def groups():
    """Returns the crates of each group by its title."""
    found = {}
    for group, name, _ in lines():
        found.setdefault(group, []).append(name)
    return found


def needs():
    """Returns the libraries that each crate names, the kit's among them."""
    return {name: libraries for _, name, libraries in lines()}


@lru_cache(None)
def below(name):
    """Returns the repository's crates below a crate, each after those that it needs."""
    found, named = {}, needs()
    for library in named[name]:
        if library in named:
            found.update(dict.fromkeys([*below(library), library]))
    return [*found]
