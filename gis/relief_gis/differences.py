"""Where a map of another program differs from the definition, cell by cell, in lines and in an array."""
from __future__ import annotations

from dataclasses import dataclass
from decimal import Decimal
from typing import Callable, Iterator, Optional, Sequence

import numpy as np

from .errors import UsageError
from .foreign import (CODES, ENDLESS, EQUAL, NEITHER, NO_CODE, SAME, classes_of, directions_of, matched_basins)
from .heights import Heights
from .making import NODATA_CODE, Place, edge_cells
from .units import counted, plain

COMPARED = ("fill", "flow", "accumulate", "basins")

Say = Callable[[str], None]


@dataclass(frozen=True)
class Pair:
    """The map of the definition and one of another program, cell by cell.

    Attributes:
        map: of COMPARED.
        ours: (rows, cols), what the program wrote; filled: likewise of `fill`, for directions.
        theirs: (rows, cols); has_theirs: (rows, cols) bool, where it has data.
        heights: of both; sinks: of the map.
        other: the name of the other map in messages.
        codes: of its directions, a key of CODES.
        place: the words for a row and a column.
    """

    map: str
    ours: np.ndarray
    theirs: np.ndarray
    has_theirs: np.ndarray
    heights: Heights
    sinks: Sequence[Place]
    other: str
    place: Callable[[int, int], str]
    codes: str = "arcgis"
    filled: Optional[np.ndarray] = None

    @property
    def chosen(self) -> np.ndarray:
        """The cells with data in both, (rows, cols) bool."""
        return self.heights.valid & self.has_theirs


def differences_of(pair: Pair, tell: Say) -> np.ndarray:
    """Compares both maps.

    Args:
        tell: takes the lines of the answer.

    Returns:
        (rows, cols): of `fill` and `accumulate` floats, the other map less ours, NaN where one has no data; of `flow`
        and `basins` uint8, the class of `foreign` and whether the basin is another one, NODATA_CODE likewise.

    Raises:
        UsageError: most directions are no codes.
    """
    for line in _told_of_data(pair.heights.valid, pair.has_theirs):
        tell(line)
    compare = {"fill": _compare_heights, "accumulate": _compare_counts, "basins": _compare_basins,
               "flow": _compare_directions}[pair.map]
    found = compare(pair, tell)
    return found if found.dtype == np.uint8 else np.where(pair.chosen, found, np.nan)


def _told_of_data(ours: np.ndarray, theirs: np.ndarray) -> Iterator[str]:
    yield f"{counted(np.count_nonzero(ours & theirs))} compared"
    for count, words in ((np.count_nonzero(ours & ~theirs), "heights, and no data in the other map"),
                         (np.count_nonzero(theirs & ~ours), "data in the other map, and no heights")):
        if count:
            yield f"{counted(count, 'cell has', 'cells have')} {words}"


def _compare_heights(pair: Pair, tell: Say) -> np.ndarray:
    """Differences of filled heights; those of less than half a unit come of rounding."""
    ours = pair.heights.values(pair.ours, np.dtype(np.float64))
    differences = np.where(pair.chosen, pair.theirs.astype(np.float64) - ours, 0)
    unit = Decimal(1).scaleb(-pair.heights.decimals)
    differs = np.abs(differences) > float(unit) / 2 * (1 + 1e-6)
    _tell_differences(pair, np.where(differs, differences, 0), f"equal within half a unit of {unit:f}", "", tell)
    return differences


def _compare_counts(pair: Pair, tell: Say) -> np.ndarray:
    theirs, below = pair.theirs.astype(np.float64), np.count_nonzero((pair.theirs < 0) & pair.chosen)
    if below:
        tell(f"{below:,} counts have a minus, as GRASS gives to cells into which land beyond may drain: it is left out")
        theirs = np.abs(theirs)
    differences = np.where(pair.chosen, theirs - pair.ours, 0)
    own = np.count_nonzero(differences[pair.chosen] == 1)
    if own > np.count_nonzero(differences[pair.chosen] == 0):
        tell("the other map counts the cell itself: 1 is taken off each of its counts")
        differences = np.where(pair.chosen, differences - 1, 0)
    _tell_differences(pair, differences, "equal", " cells", tell)
    return differences


def _tell_differences(pair: Pair, differences: np.ndarray, equal: str, unit: str, tell: Say) -> None:
    """Tells how many cells are equal, and how many lie above and below, by how much at most and where."""
    tell(f"{np.count_nonzero((differences == 0) & pair.chosen):,} {equal}")
    for words, signed in (("above", differences), ("below", -differences)):
        count = np.count_nonzero(signed > 0)
        if count:
            row, col = np.unravel_index(int(np.argmax(signed)), signed.shape)
            tell(f"{count:,} {words}, by at most {plain(Decimal(repr(float(signed[row, col]))))}{unit}, at "
                 f"{pair.place(int(row), int(col))}")


def _compare_directions(pair: Pair, tell: Say) -> np.ndarray:
    valid = pair.heights.valid
    ends = edge_cells(valid)
    for sink in pair.sinks:
        ends[sink.row, sink.col] = True
    theirs, unknown = directions_of(pair.theirs, pair.chosen, pair.codes)
    if 2 * np.count_nonzero(unknown) > np.count_nonzero(pair.chosen):
        raise UsageError(f"most numbers of {pair.other} are no codes of {pair.codes}: give --codes "
                         f"{'|'.join(CODES)}")
    assert pair.filled is not None
    ours = np.where(valid, pair.ours, 0).astype(np.uint8)
    found = classes_of(theirs, unknown, ours, pair.filled, valid, ends)
    for kind, words in ((SAME, "the direction of the definition"), (EQUAL, "another one of equals"),
                        (NEITHER, "neither the steepest nor the shortest over a flat"),
                        (NO_CODE, f"numbers that are no codes of {pair.codes}"),
                        (ENDLESS, "on paths that never end")):
        tell(f"{np.count_nonzero((found == kind) & pair.chosen):,} {words}")
    return np.where(pair.chosen, found, NODATA_CODE).astype(np.uint8)


def _compare_basins(pair: Pair, tell: Say) -> np.ndarray:
    same, count, ours, theirs = matched_basins(pair.ours[pair.chosen], pair.theirs[pair.chosen])
    tell(f"{count:,} basins of the same cells, of {ours:,} by the definition and {theirs:,} of the other map")
    tell(f"{counted(np.count_nonzero(same))} in them, {np.count_nonzero(~same):,} in others")
    found = np.full(pair.chosen.shape, NODATA_CODE, np.uint8)
    found[pair.chosen] = ~same
    return found
