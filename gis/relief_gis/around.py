"""Which part of a raster of any size has the catchment of a place: windows round it that grow until it fits."""
from __future__ import annotations

from dataclasses import replace
from fractions import Fraction
from typing import TYPE_CHECKING, List, Optional, Tuple

import numpy as np

from .errors import InputError
from .frame import Window
from .heights import MOST_SIDE
from .lands import checked, heights_in_units
from .making import Place, Request
from .points import Point, points_on_data, snap
from .program import Program
from .raster import Raster
from .units import counted, plain

if TYPE_CHECKING:
    from .job import Caller, Job

# The side of the first window, in cells. Each further one is twice as large.
FIRST_SIDE = 256

# The cells of a catchment: their rows and their columns in the raster.
Cells = Tuple[np.ndarray, np.ndarray]


def raster_around(job: Job, raster: Raster, place: Point, program: Program, caller: Caller) -> Raster:
    """The raster with a smaller part to be read: one that holds the catchment of a place.

    A window holds it where the catchment lies off the sides at which the window cuts the raster, and where the window
    before had the same one: ground that was not yet read may change how depressions near it spill.

    Raises:
        InputError: the place has no data.
    """
    faults: List[str] = []
    points_on_data([place], raster.frame, raster.has_data, faults)
    if faults:
        raise InputError("; ".join(faults))
    cell = raster.frame.cell_at(Fraction(place.x), Fraction(place.y))
    before: Optional[Cells] = None
    side = min(FIRST_SIDE, MOST_SIDE)
    while True:
        window = _window(cell, side, raster)
        found = _catchment(job, raster, window, cell, program, caller)
        is_cut = _touches_cut(found, window, raster)
        is_same = before is not None and all(map(np.array_equal, before, found))
        is_all = window[2:] == raster.window[2:]
        if is_all or (is_same and not is_cut) or side >= MOST_SIDE:
            break
        before, side = found, min(2 * side, MOST_SIDE)
    _tell(place, found, window, is_all or (is_same and not is_cut), is_cut, raster, caller)
    left, top = raster.window[:2]
    return replace(raster, window=(left + window[0], top + window[1], *window[2:]))


def _window(cell: Tuple[int, int], side: int, raster: Raster) -> Window:
    """The window of so many cells round a cell, moved into the raster where it would reach beyond."""
    _, _, cols, rows = raster.window
    width, height = min(side, cols), min(side, rows)
    left, top = (min(max(at - side // 2, 0), whole - part)
                 for at, whole, part in ((cell[1], cols, width), (cell[0], rows, height)))
    return left, top, width, height


def _catchment(job: Job, raster: Raster, window: Window, cell: Tuple[int, int], program: Program,
               caller: Caller) -> Cells:
    """The cells that drain to a place by the heights of a window; those of the gauge to which it moves."""
    terrain = raster.read(window)
    if job.voids == "fill":
        terrain = checked(terrain, job, lambda line: None)
    heights = heights_in_units(terrain, job.decimals)
    places = [Place("the place", cell[0] - window[1], cell[1] - window[0])]
    if job.snap is not None:
        counts = caller.make(Request("accumulate", workers=job.workers, tile=job.tile), heights, program)
        places = snap(places, counts, job.snap)
    numbers = caller.make(Request("catchments", places, workers=job.workers, tile=job.tile), heights, program)
    rows, cols = np.nonzero(numbers == 1)
    return rows + window[1], cols + window[0]


def _touches_cut(cells: Cells, window: Window, raster: Raster) -> bool:
    """Whether a catchment reaches a side of a window that is none of the raster."""
    left, top, width, height = window
    (low_row, high_row), (low_col, high_col) = ((int(it.min()), int(it.max())) for it in cells)
    return (low_row == top > 0 or low_col == left > 0 or high_row == top + height - 1 < raster.window[3] - 1
            or high_col == left + width - 1 < raster.window[2] - 1)


def _tell(place: Point, found: Cells, window: Window, is_sure: bool, is_cut: bool, raster: Raster,
          caller: Caller) -> None:
    caller.say(f"{window[2]:,} columns and {window[3]:,} rows are read round {plain(place.x)},{plain(place.y)}, to "
               f"which {counted(found[0].size, 'cell drains', 'cells drain')}")
    if not is_sure:
        more = "reaches the border of what is read" if is_cut else "may change with more ground"
        caller.say(f"{MOST_SIDE:,} columns and rows are the most, and the catchment {more}: make the cells larger: "
                   f"{raster.coarsening(max(raster.window[2:]))}")
