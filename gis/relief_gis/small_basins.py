"""Basins of few cells, which are taken for none."""
from __future__ import annotations

from typing import Callable

import numpy as np

from .blocks import array_of
from .grid_text import STRIP
from .units import counted

Say = Callable[[str], None]


def without_small(found: np.ndarray, least: int, say: Say) -> np.ndarray:
    """Basins of at least so many cells; smaller ones are 0.

    Args:
        found: (rows, cols) int32, the map of basins.
        say: takes a line on how many there are of both.
    """
    sizes = np.zeros(max(int(found.max()), 0) + 1, np.int64)
    for first in range(0, len(found), STRIP):
        sizes += np.bincount(np.maximum(found[first:first + STRIP], 0).ravel(), minlength=sizes.size)
    # Cells without data are no basin.
    sizes[0] = 0
    is_small = (sizes > 0) & (sizes < least)
    say(f"{counted(np.count_nonzero(sizes >= max(least, 1)), 'basin has', 'basins have')} at least {counted(least)}; "
        f"{counted(np.count_nonzero(is_small), 'smaller one is', 'smaller ones are')} 0, with "
        f"{counted(int(sizes[is_small].sum()))}")
    return array_of(lambda rows: np.where(is_small[np.maximum(found[rows], 0)], 0, found[rows]), found.shape, np.int32)
