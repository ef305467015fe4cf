"""Views and rises that the program cannot make in one run: of rasters of any size, for each mast, on the curved earth.

Of a raster that is larger than what the program takes only the surroundings of the observers are read.
"""
from __future__ import annotations

from dataclasses import dataclass, replace
from decimal import Decimal
from fractions import Fraction
from functools import partial
from typing import TYPE_CHECKING, Callable, List, Mapping, Sequence, Tuple

import numpy as np

from .curvature import coarser, curved, drop_of_a_cell, finer
from .draft import Draft, save_drafts, write_text
from .errors import InputError
from .frame import Window
from .grid_text import STRIP
from .heights import MOST_SIDE, Heights
from .lands import checked, heights_in_units, tell_rounding, tell_units
from .making import NODATA_COUNT, Place, join_seen
from .points import Point, places_of
from .program import Program
from .raster import Raster, Terrain
from .requests import check_count, points_in, radii, radius_of, views
from .units import Reach, plain
from .sights import Row, rows_of, table_of
from .voids import find_holes

if TYPE_CHECKING:
    from .job import Caller, Job

# Most cells of a map: the observers' surroundings and what lies between them, 4 bytes each.
MOST_CELLS = 1 << 28

Say = Callable[[str], None]


@dataclass(frozen=True)
class Box:
    """Rows and columns of a raster, the last ones left out."""

    top: int
    left: int
    bottom: int
    right: int

    @property
    def rows(self) -> int:
        """How many rows it has."""
        return self.bottom - self.top

    @property
    def cols(self) -> int:
        """How many columns it has."""
        return self.right - self.left

    @property
    def corner(self) -> Tuple[int, int]:
        """Its first row and column."""
        return self.top, self.left

    @property
    def window(self) -> Window:
        """Column, row, columns, rows."""
        return self.left, self.top, self.cols, self.rows

    def part(self, row: int, rows: int) -> Box:
        """So many of its rows, from one on."""
        return Box(self.top + row, self.left, self.top + row + rows, self.right)

    def joined(self, other: Box) -> Box:
        """The least box that holds both."""
        return Box(min(self.top, other.top), min(self.left, other.left), max(self.bottom, other.bottom),
                   max(self.right, other.right))

    def within(self, outer: Box) -> Tuple[slice, slice]:
        """Its rows and columns, counted from those of a box that holds it."""
        return (slice(self.top - outer.top, self.bottom - outer.top),
                slice(self.left - outer.left, self.right - outer.left))


@dataclass(frozen=True)
class Observer:
    """An observer: the number from 1, the point, and what lies within its radius."""

    number: int
    point: Point
    box: Box


@dataclass(frozen=True)
class Part:
    """A part of a raster that is read at once, and the observers of whom it is the surroundings."""

    box: Box
    observers: Tuple[Observer, ...]

    def joined(self, other: Part) -> Part:
        """Both parts as one."""
        return Part(self.box.joined(other.box), self.observers + other.observers)


def is_by_mast(job: Job) -> bool:
    """Whether a view takes a run for each of its observers."""
    return job.each or job.curvature or job.visibility is not None


def is_by_parts(job: Job, raster: Raster) -> bool:
    """Whether a view takes more than one run over all that is read."""
    return raster.is_wide or is_by_mast(job)


def run_by_parts(job: Job, raster: Raster, program: Program, caller: Caller) -> None:
    """Maps what observers see; the map has all that is read, of a wide raster the least box round all surroundings.

    Raises:
        InputError: an observer of a wide raster has no radius, or surroundings that are too large.
    """
    tell_units(raster.frame, raster.unit, job, caller.say)
    points = points_in(job, job.places, raster.frame, raster.has_data, caller.say)
    check_count(job, points)
    cells = radii(job, points, raster.frame, caller.say)
    observers = [_observer(number, point, job, raster, cells) for number, point in enumerate(points, 1)]
    parts = _parts(observers, raster) if raster.is_wide else [Part(_whole(raster), tuple(observers))]
    run = _Run(job, raster, program, caller, cells, _box_of(parts))
    with run.begin(points) as draft:
        for part in parts:
            say = caller.say if len(parts) == 1 else _say_near(part, caller.say)
            heights = _land(job, raster, part, say, len(parts) > 1)
            run.rounding = max(run.rounding, heights.rounding)
            if is_by_mast(job):
                run.map_each(part, heights, draft)
            else:
                run.map_together(part, heights)
        run.end(draft)


class _Run:
    """A view as far as it is made.

    Args:
        cells: of each radius, how many it has.
        box: what the map has.
    """

    def __init__(self, job: Job, raster: Raster, program: Program, caller: Caller, cells: Mapping[Reach, int],
                 box: Box) -> None:
        self.job, self.raster, self.program, self.caller = job, raster, program, caller
        self.cells, self.box = cells, box
        self.rounding, self.drop = Decimal(0), Fraction(0)
        self.places: List[Place] = []
        self.names: List[str] = []
        self.rows: List[Row] = []
        # Of a wide raster cells that lie within no observer's square of the radius have no data.
        self.seen = np.full((box.rows, box.cols), NODATA_COUNT, np.int32)

    def begin(self, points: Sequence[Point]) -> Draft:
        """The map to be written; the heights at the first observer tell how all of them are read."""
        frame = self.raster.frame
        row, col = frame.cell_at(Fraction(points[0].x), Fraction(points[0].y))
        terrain = self.raster.read((col, row, 1, 1))
        heights = heights_in_units(terrain, self.job.decimals)
        self.places = places_of(points, frame, heights.decimals, self.job.eye)
        if self.job.curvature:
            self.drop = drop_of_a_cell(frame, self.raster.unit, heights.decimals, self.job.refraction)
        self.names = [point.label or str(point) for point in points]
        return Draft(self.job, replace(terrain, frame=frame.part(self.box.window)), heights, self.job.map,
                     self.program.version, self.names if self.job.each else None)

    def map_together(self, part: Part, heights: Heights) -> None:
        """Adds how many of a part's observers see its cells."""
        points, frame = [it.point for it in part.observers], self.raster.frame.part(part.box.window)
        is_near = np.zeros((part.box.rows, part.box.cols), bool)
        for observer in part.observers:
            is_near[observer.box.within(part.box)] = True
        for request in views(self.job, points, frame, heights.decimals, self.cells):
            found = self.caller.make(request, heights, self.program)
            self._add(part.box, np.where(is_near, found, NODATA_COUNT))

    def map_each(self, part: Part, heights: Heights, draft: Draft) -> None:
        """Maps what each of a part's observers sees, by a run for each."""
        self._begin_seen(heights)
        for observer in part.observers:
            cut = observer.box.within(part.box)
            self._map_one(observer, heights.part(cut), draft)

    def end(self, draft: Draft) -> None:
        """Writes the map and the table."""
        tell_rounding(self.rounding, draft.heights.decimals, self.caller.say)
        self.caller.check()
        if not self.job.each:
            draft.put(self.seen)
        if self.job.visibility is not None:
            draft.also[self.job.visibility] = partial(write_text, text=table_of(self.rows))
        save_drafts([draft], self.caller.say)

    def _begin_seen(self, heights: Heights) -> None:
        """Of a raster that is read as a whole a cell with data that nobody sees has 0 in a view."""
        if not self.raster.is_wide and self.job.map == "view":
            self.seen[heights.valid] = 0

    def _map_one(self, observer: Observer, near: Heights, draft: Draft) -> None:
        """Maps what one observer sees, of the heights of its box."""
        request, = views(self.job, [observer.point], self.raster.frame.part(observer.box.window), near.decimals,
                         self.cells)
        decimals = near.decimals
        if self.job.curvature:
            request, near = curved(request, near, self.drop)
        counts: List[int] = []

        def add(found: np.ndarray, row: int) -> None:
            counts.append(int(np.count_nonzero(found > 0)))
            if not self.job.each:
                self._add(observer.box.part(row, len(found)), coarser(self.job.map, found, finer(near, decimals)))

        # What is summed up need not be kept.
        found = self.caller.make(request, near, self.program, add, self.job.each)
        if self.job.each:
            self._put_band(observer, coarser(self.job.map, found, finer(near, decimals)), draft)
        if self.job.visibility is not None:
            self.rows += rows_of(observer.number, self.names, self.places, decimals, observer.box.corner, near,
                                 request.radius, sum(counts), self.raster.frame)

    def _put_band(self, observer: Observer, found: np.ndarray, draft: Draft) -> None:
        """Writes what an observer sees of its box; elsewhere it sees nothing."""
        rows, cols = observer.box.within(self.box)
        for first in range(0, len(self.seen), STRIP):
            band = self.seen[first:first + STRIP].copy()
            top, bottom = (min(max(row, first), first + len(band)) for row in (rows.start, rows.stop))
            band[top - first:bottom - first, cols] = found[top - rows.start:bottom - rows.start]
            draft.put(band, first, observer.number)

    def _add(self, box: Box, found: np.ndarray) -> None:
        """Adds what is seen of the cells of a box; where there is data and nobody sees, a view has 0."""
        join_seen(self.job.map, self.seen[box.within(self.box)], found)


def _whole(raster: Raster) -> Box:
    return Box(0, 0, raster.frame.rows, raster.frame.cols)


def _observer(number: int, point: Point, job: Job, raster: Raster, cells: Mapping[Reach, int]) -> Observer:
    """An observer with what lies within its radius.

    Raises:
        InputError: that is more than the program takes.
    """
    radius = radius_of(job, point)
    if radius is None:
        if raster.is_wide:
            raise InputError(f"{raster.size_words()}: give --radius, and only the surroundings of the observers are "
                             "read")
        return Observer(number, point, _whole(raster))
    frame, reach = raster.frame, cells[radius]
    row, col = frame.cell_at(Fraction(point.x), Fraction(point.y))
    box = Box(max(row - reach, 0), max(col - reach, 0), min(row + reach + 1, frame.rows),
              min(col + reach + 1, frame.cols))
    if max(box.rows, box.cols) > MOST_SIDE:
        raise InputError(f"within the radius {plain(radius)} of {point} lie {box.cols:,} columns and {box.rows:,} "
                         f"rows, and {MOST_SIDE:,} of each is the most: give a smaller --radius, or make the cells "
                         f"larger: {raster.coarsening(max(box.rows, box.cols))}")
    return Observer(number, point, box)


def _parts(observers: Sequence[Observer], raster: Raster) -> List[Part]:
    """The surroundings of all observers; near ones are read together."""
    parts: List[Part] = []
    for observer in observers:
        part = Part(observer.box, (observer,))
        # A joined part may be worth joining to another one.
        while near := next((other for other in parts if _is_worth_joining(part.box, other.box)), None):
            parts.remove(near)
            part = near.joined(part)
        parts.append(part)
    return parts


def _is_worth_joining(one: Box, other: Box) -> bool:
    """Whether a box that holds two boxes has no more cells than these, and is not too large."""
    both = one.joined(other)
    return max(both.rows, both.cols) <= MOST_SIDE \
        and both.rows * both.cols <= one.rows * one.cols + other.rows * other.cols


def _box_of(parts: Sequence[Part]) -> Box:
    """The least box round all parts.

    Raises:
        InputError: it has more cells than a map may have.
    """
    box = parts[0].box
    for part in parts[1:]:
        box = box.joined(part.box)
    if box.rows * box.cols > MOST_CELLS:
        raise InputError(f"the observers lie far apart, and their map would have {box.cols:,} columns and "
                         f"{box.rows:,} rows: make a map for each group of them")
    return box


def _land(job: Job, raster: Raster, part: Part, say: Say, is_one_of_several: bool) -> Heights:
    """The heights of a part; says what is doubtful there."""
    try:
        terrain = raster.read(part.box.window)
        _tell_open(terrain, part.box, raster, say)
        # The rounding of all parts is told once.
        return heights_in_units(checked(terrain, job, say), job.decimals)
    except InputError as error:
        if is_one_of_several:
            raise InputError(f"near {part.observers[0].point}: {error}") from None
        raise


def _say_near(part: Part, say: Say) -> Say:
    return lambda line: say(f"near {part.observers[0].point}: {line}")


def _tell_open(terrain: Terrain, box: Box, raster: Raster, say: Say) -> None:
    """Says that cells without data are joined to a border that is none of the raster: they may be a part of a hole."""
    empty = ~terrain.valid
    cut_sides = (box.top > 0 and empty[0].any(), box.bottom < raster.frame.rows and empty[-1].any(),
                 box.left > 0 and empty[:, 0].any(), box.right < raster.frame.cols and empty[:, -1].any())
    if any(cut_sides):
        count = int(np.count_nonzero(empty)) - find_holes(empty).cell_count
        say(f"{count:,} cells without data are joined to the border of what is read: they block no view")
