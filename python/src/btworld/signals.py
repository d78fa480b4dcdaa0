"""Signals as numbers and as letters."""
from __future__ import annotations

import operator
from typing import Iterable, SupportsIndex, Union

from ._library import LETTERS

# Which signals are on: a number whose bit 0 is signal a, or their letters.
Signals = Union[SupportsIndex, Iterable[str]]


def mask_of(signals: Signals) -> int:
    """Signals as a number whose bit 0 is signal a. Any integer is taken, also numpy's, and any iterable of letters.

    >>> mask_of("ac"), mask_of([]), mask_of(5), mask_of(True)
    (5, 0, 5, 1)
    >>> mask_of(1 << 26)
    Traceback (most recent call last):
    ValueError: a number of signals has bits 0 (a) to 25 (z), and 67108864 has others
    """
    try:
        mask = int(operator.index(signals))  # type: ignore[arg-type]
    except TypeError:
        letters = set(signals)  # type: ignore[arg-type]
        if not letters <= set(LETTERS):
            raise ValueError(f"signals are letters from a to z, and not {sorted(map(str, letters))}") from None
        return sum(1 << ord(it) - ord("a") for it in letters)
    if not 0 <= mask < 1 << len(LETTERS):
        raise ValueError(f"a number of signals has bits 0 (a) to 25 (z), and {mask} has others")
    return mask


def letters_of(mask: int) -> str:
    """The letters of a number of signals.

    >>> letters_of(5)
    'ac'
    """
    return "".join(it for k, it in enumerate(LETTERS) if mask >> k & 1)
