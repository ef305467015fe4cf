"""The maps: what `relief` is asked for, and of which numpy type its answer is."""
from __future__ import annotations

from concurrent.futures import ThreadPoolExecutor
from dataclasses import dataclass, replace
from typing import Callable, List, Optional, Sequence, Tuple

import numpy as np

from .blocks import array_of, row_blocks
from .grid_text import STRIP, TakeRows, Wanted, offset_of
from .heights import Heights
from .program import Program, Question, Report
from .units import MOST_RADIUS_CELLS
from .voids import any_of_nine

NODATA_CODE = 255
NODATA_COUNT = -9999
DRAINAGE = ("fill", "flow", "accumulate", "basins", "catchments")
# The maps of observers: how many see each cell, and the least target height at which one does.
SIGHT = ("view", "rise")
# The map of the program from which each map comes.
SOURCES = {**{name: name for name in (*DRAINAGE, *SIGHT)}, "depth": "fill", "area": "accumulate",
           "streams": "accumulate"}


@dataclass(frozen=True)
class Place:
    """A sink, a gauge or an observer: its name in messages, its row and column from 0, the eye in units."""

    name: str
    row: int
    col: int
    eye: Optional[int] = None

    @property
    def word(self) -> str:
        """The place as the program takes it."""
        numbers = (self.row, self.col) if self.eye is None else (self.row, self.col, self.eye)
        return ",".join(str(number) for number in numbers)


@dataclass(frozen=True)
class Request:
    """One run of the program.

    Attributes:
        map: fill, flow, accumulate, basins, catchments, view or rise; or maps, for several by one run.
        places: sinks; of `catchments` and `maps` gauges; of `view` and `rise` observers.
        sinks: sinks of `catchments` and `maps`.
        maps: those of `maps`, of DRAINAGE, in their order.
        target: height of the targets of `view`, in units.
        radius: how far is seen in `view` and `rise`, in cells; None: over the whole grid.
        workers: threads, 1 to 64.
        tile: side of the tiles in cells; None: the program's own.
    """

    map: str
    places: Sequence[Place] = ()
    sinks: Sequence[Place] = ()
    maps: Sequence[str] = ()
    target: int = 0
    radius: Optional[int] = None
    workers: int = 1
    tile: Optional[int] = None

    def words(self) -> List[str]:
        """The words of the program's command line."""
        words = [self.map, "--workers", str(self.workers)]
        if self.tile is not None:
            words += ["--tile", str(self.tile)]
        if self.map == "view":
            words += ["--target", str(self.target)]
        if self.map in SIGHT and self.radius is not None:
            words += ["--radius", str(self.radius)]
        for sink in self.sinks:
            words += ["--sink", sink.word]
        if self.map == "maps":
            return words + [word for gauge in self.places for word in ("--gauge", gauge.word)] + list(self.maps)
        return words + [place.word for place in self.places]


def _reach(request: Request, shape: Tuple[int, ...]) -> Optional[Tuple[slice, slice]]:
    """Rows and columns that hold all that observers can see; None: all, or the program will refuse."""
    places, radius = request.places, request.radius
    is_refused = not all(0 <= place.row < shape[0] and 0 <= place.col < shape[1] for place in places)
    if request.map not in SIGHT or radius is None or not 1 <= radius <= MOST_RADIUS_CELLS or not places or is_refused:
        return None
    ends = [(min(cells), max(cells)) for cells in zip(*((place.row, place.col) for place in places))]
    rows, cols = (slice(max(low - radius, 0), min(high + radius + 1, side)) for (low, high), side in zip(ends, shape))
    return rows, cols


def unseen(name: str, valid: np.ndarray) -> np.ndarray:
    """A map of observers where nobody sees anything.

    Args:
        valid: (rows, cols) bool, where there is data.
    """
    value = np.int32(0 if name == "view" else NODATA_COUNT)
    return array_of(lambda rows: np.where(valid[rows], value, np.int32(NODATA_COUNT)), valid.shape, np.int32)


def join_seen(name: str, seen: np.ndarray, more: np.ndarray) -> None:
    """Adds to a map of observers what further ones see: counts add up, and of heights the least counts.

    Args:
        seen, more: (rows, cols) int32, NODATA_COUNT where there is no value, of which the other one has the value then.
    """
    for rows in row_blocks(seen.shape):
        ours, theirs = seen[rows], more[rows]
        is_known = theirs != NODATA_COUNT
        is_first = is_known & (ours == NODATA_COUNT)
        if name == "view":
            ours[is_first] = 0
            np.add(ours, theirs, out=ours, where=is_known)
        else:
            np.minimum(ours, theirs, out=ours, where=is_known)
            ours[is_first] = theirs[is_first]


def make(request: Request, heights: Heights, program: Program, on_progress: Optional[Report] = None,
         is_cancelled: Optional[Question] = None, by_percent: bool = False,
         on_rows: Optional[TakeRows] = None, keeps: bool = True) -> np.ndarray:
    """Makes a map with the program, which reports its progress and is cancelled as in `Program.run`.

    Args:
        on_rows: called with strips of the map, as the program writes them, and their first rows, on another thread and
            in their order; where it gets a part of the heights, first with those that are out of reach.
        keeps: whether a map that goes to `on_rows` is kept; else what is returned has no rows.

    Returns:
        (rows, cols): of `fill` in units, of their type, any number where there is no data; of `flow` uint8 with
        NODATA_CODE; of the others int32 with NODATA_COUNT.

    Raises:
        MissingError, ReliefError, DeviceError, Cancelled.
    """
    if request.map in ("catchments", "rise"):
        program.require(request.map)
    part = _reach(request, heights.shape)
    if part is not None and heights.valid[part].size < heights.valid.size:
        # Lines of sight lie between their ends, and farther off nothing is seen.
        places = [replace(place, row=place.row - part[0].start, col=place.col - part[1].start)
                  for place in request.places]
        beyond, within = _strips(heights.shape[0], part[0])
        rows = slice(within[0].start, within[-1].stop)
        with ThreadPoolExecutor(1) as pool:
            # What lies out of reach need not wait for the program.
            giving = pool.submit(_give, lambda strip: unseen(request.map, heights.valid[strip]), beyond, on_rows)
            seen = unseen(request.map, heights.valid[rows])
            seen[part[0].start - rows.start:part[0].stop - rows.start, part[1]] = make(
                replace(request, places=places), heights.part(part), program, on_progress, is_cancelled, by_percent)
            giving.result()
        _give(lambda strip: seen[strip.start - rows.start:strip.stop - rows.start], within, on_rows)
        if not keeps:
            return seen[:0]
        found = unseen(request.map, heights.valid)
        found[rows] = seen
        return found
    return make_together(request, heights, program, [Use(request.map, on_rows, keeps)], on_progress, is_cancelled,
                         by_percent)[0]


def _strips(rows: int, reached: slice) -> Tuple[List[slice], List[slice]]:
    """The strips of a map that hold none of some rows, and those that do."""
    strips = [slice(first, min(first + STRIP, rows)) for first in range(0, rows, STRIP)]
    within = [strip for strip in strips if strip.start < reached.stop and reached.start < strip.stop]
    return [strip for strip in strips if strip not in within], within


def _give(rows_of: Callable[[slice], np.ndarray], strips: Sequence[slice], on_rows: Optional[TakeRows]) -> None:
    """Gives strips of a map on."""
    for strip in strips if on_rows is not None else ():
        on_rows(rows_of(strip), strip.start)


@dataclass(frozen=True)
class Use:
    """What becomes of a map: its name, and `on_rows` and `keeps` of `make`."""

    map: str
    on_rows: Optional[TakeRows] = None
    keeps: bool = True


def make_together(request: Request, heights: Heights, program: Program, uses: Sequence[Use],
                  on_progress: Optional[Report] = None, is_cancelled: Optional[Question] = None,
                  by_percent: bool = False) -> List[np.ndarray]:
    """Makes maps by one run of the program, each as `make` does.

    Args:
        uses: one for each map, in the order of the request.
    """
    names, sinks = ([place.name for place in places] for places in (request.places, request.sinks))
    codes = [_Codes(heights.valid, use.on_rows) if use.map == "flow" and use.keeps else None for use in uses]
    wanted = [Wanted(heights.dtype if use.map == "fill" else np.dtype(np.int32),
                     use.on_rows if kept is None else kept.put, use.keeps and kept is None,
                     offset_of(heights) if use.map == "fill" else 0)
              for use, kept in zip(uses, codes)]
    found = program.run_together(request.words(), heights, wanted, names, sinks, on_progress, is_cancelled, by_percent)
    return [array if kept is None else kept.kept for array, kept in zip(found, codes)]


class _Codes:
    """Directions in a byte each, of strips of what the program writes, which it gives on.

    Args:
        valid: (rows, cols) bool, where there is data.
    """

    def __init__(self, valid: np.ndarray, on_rows: Optional[TakeRows]) -> None:
        self.kept = np.empty(valid.shape, np.uint8)
        self.valid, self.on_rows = valid, on_rows

    def put(self, strip: np.ndarray, row: int) -> None:
        """Takes a strip from a row on."""
        rows = slice(row, row + len(strip))
        self.kept[rows] = np.where(self.valid[rows], strip, NODATA_CODE)
        if self.on_rows is not None:
            self.on_rows(strip, row)


def edge_cells(valid: np.ndarray) -> np.ndarray:
    """Where the data ends: the data cells with a place outside the grid or without data among the eight around them.

    Args:
        valid: (rows, cols) bool, where there is data.

    Returns:
        (rows, cols) bool.
    """
    def edges(rows: slice) -> np.ndarray:
        top, bottom = max(rows.start - 1, 0), min(rows.stop + 1, len(valid))
        empty = np.ones((rows.stop - rows.start + 2, valid.shape[1] + 2), bool)
        first = top - (rows.start - 1)
        np.logical_not(valid[top:bottom], out=empty[first:first + bottom - top, 1:-1])
        return valid[rows] & any_of_nine(empty)

    return array_of(edges, valid.shape, bool)


def lower_neighbour(heights: Heights, place: Place) -> Optional[Tuple[int, int]]:
    """The lowest cell beside a sink that lies below it; None: there is none, and the sink keeps its water."""
    top, left = max(place.row - 1, 0), max(place.col - 1, 0)
    around = slice(top, place.row + 2), slice(left, place.col + 2)
    units, valid = heights.rows(around[0])[:, around[1]], heights.valid[around]
    best, found = int(units[place.row - top, place.col - left]), None
    for row, col in np.argwhere(valid & (units < best)).tolist():
        if units[row, col] < best:
            best, found = int(units[row, col]), (top + row, left + col)
    return found
