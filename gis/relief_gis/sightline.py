"""One line of sight, by the rule of sight of docs/rules.md, in whole numbers."""
from __future__ import annotations

from dataclasses import dataclass, replace
from decimal import Decimal
from fractions import Fraction
from typing import Iterator, List, Optional, Tuple

import numpy as np

from .heights import Heights
from .units import MOST_DECIMALS, MOST_EYE_UNITS

Cell = Tuple[int, int]

# Sums of three whole numbers below it have 64 bits.
MOST_EXACT = 1 << 61
# Most units of eyes and targets, where those of heights are finer.
MOST_ABOVE = MOST_EYE_UNITS * 10**MOST_DECIMALS


@dataclass(frozen=True)
class Crossings:
    """Where a line crosses the columns, or the rows, of cell centres between its ends; at crossing `s` of 1 to n - 1.

    Attributes:
        length: n, how many columns or rows lie from end to end.
        step: (k,) int, s of each crossing; the crossing lies s / n of the way.
        ground: (k,) int64, or object of Python's numbers: the height of the ground times n.
        known: (k,) bool, whether each cell that takes part has data.
        cells: (k, 2), the cell that is nearer to each crossing, of two equal ones the first.
    """

    length: int
    step: np.ndarray
    ground: np.ndarray
    known: np.ndarray
    cells: np.ndarray

    def above(self, low: int, high: int) -> np.ndarray:
        """How far the ground lies above a line from one height to another, times n."""
        return self.ground - low * (self.length - self.step) - high * self.step


class Sightline:
    """The ground between two cells with data.

    Args:
        heights: of the grid.
        start, end: row and column.
    """

    def __init__(self, heights: Heights, start: Cell, end: Cell) -> None:
        self.start, self.end = start, end
        self.ends = tuple(int(heights.units[cell]) for cell in (start, end))
        families = (_crossings(heights, start, end, axis) for axis in (0, 1))
        self.families = [found for found in families if found is not None]

    def is_seen(self, eye: int, above: int) -> bool:
        """Whether no crossing blocks, from so far above the ground at the start to so far above it at the end."""
        low, high = self.ends[0] + eye, self.ends[1] + above
        return not any(np.any((it.above(low, high) > 0) & it.known) for it in self.families)

    def least_target(self, eye: int) -> int:
        """The least height above the ground at the end, from 0, that is seen."""
        low = self.ends[0] + eye
        needed = (-((low * (it.length - it.step) - it.ground) // it.step) for it in self.families)
        return _most(needed, self.families, self.ends[1])

    def least_eye(self, above: int) -> int:
        """The least height above the ground at the start, from 0, from which the end is seen."""
        high = self.ends[1] + above
        needed = (-((high * it.step - it.ground) // (it.length - it.step)) for it in self.families)
        return _most(needed, self.families, self.ends[0])

    def worst(self, eye: int, above: int) -> Optional[Worst]:
        """Where the ground is highest against the line, in units; None: no crossing with data lies between the ends."""
        low, high = self.ends[0] + eye, self.ends[1] + above
        found = []
        for it in self.families:
            if it.known.any():
                places = np.flatnonzero(it.known)
                place = int(places[np.argmax(it.above(low, high)[places])])
                found.append((Fraction(int(it.above(low, high)[place]), it.length),
                              -Fraction(int(it.step[place]), it.length), tuple(map(int, it.cells[place]))))
        if not found:
            return None
        excess, along, cell = max(found)
        return Worst(-along, excess, (cell[0], cell[1]))

    def ground(self) -> Iterator[Tuple[Fraction, Optional[Fraction]]]:
        """How far along each crossing and both ends lie, 0 to 1, in order, and the ground there; None: no data."""
        found = {Fraction(0): Fraction(self.ends[0]), Fraction(1): Fraction(self.ends[1])}
        places = {along: ground for it in self.families for along, ground in _places(it)}
        yield from sorted({**places, **found}.items(), key=lambda place: place[0])


def _places(it: Crossings) -> Iterator[Tuple[Fraction, Optional[Fraction]]]:
    for step, ground, known in zip(it.step, it.ground, it.known):
        yield Fraction(int(step), it.length), Fraction(int(ground), it.length) if known else None


def _most(needed: Iterator[np.ndarray], families: List[Crossings], ground: int) -> int:
    """The greatest of the heights that crossings with data ask for, above the ground, at least 0."""
    return max([0, *(int(found[it.known].max()) - ground for found, it in zip(needed, families) if it.known.any())])


def _crossings(heights: Heights, start: Cell, end: Cell, axis: int) -> Optional[Crossings]:
    """The crossings with rows (axis 0) or columns (axis 1) of centres; None: there is none."""
    along, across = end[axis] - start[axis], end[1 - axis] - start[1 - axis]
    length, sign = abs(along), 1 if along > 0 else -1
    if length < 2:
        return None
    step = np.arange(1, length)
    whole, part = np.divmod(step * across, length)
    # Of weight 0 the second cell takes no part.
    first, second = (_cells(start, axis, sign * step, whole + further) for further in (0, part > 0))
    one, other = (heights.units[cells].astype(np.int64) for cells in (first, second))
    ends = (abs(int(heights.units[cell])) for cell in (start, end))
    if (max(*ends, int(np.abs([one, other]).max())) + MOST_ABOVE) * length >= MOST_EXACT:
        one, other, step, part = (it.astype(object) for it in (one, other, step, part))
    nearer = np.where(2 * part > length, second, first)
    return Crossings(length, step, one * (length - part) + other * part, heights.valid[first] & heights.valid[second],
                     nearer.T)


def _cells(start: Cell, axis: int, along: np.ndarray, across: np.ndarray) -> Tuple[np.ndarray, np.ndarray]:
    """Rows and columns of cells by how far they lie from the start along an axis and across it."""
    rows, cols = (along, across) if axis == 0 else (across, along)
    return start[0] + rows, start[1] + cols


@dataclass(frozen=True)
class Worst:
    """Where the ground is highest against a line of sight.

    Attributes:
        along: how far along the line, 0 to 1.
        excess: how far above the line, below 0 where it lies below.
        cell: row and column of the nearer cell.
    """

    along: Fraction
    excess: Fraction
    cell: Tuple[int, int]


@dataclass(frozen=True)
class Profile:
    """A line of sight between two cells, heights in the unit of the heights and not of their decimals.

    Attributes:
        along: how far along the line each crossing with a row or a column of centres lies, from 0 to 1, its ends too.
        ground: the height of the ground there, None where there is no data.
        line: the height of the line of sight there.
        is_seen: whether the target is seen.
        worst: where the ground is highest against the line; None: no ground lies between.
        least_eye, least_target: the least heights over the ground by which the target is seen, the other as it is.
    """

    along: List[Fraction]
    ground: List[Optional[Fraction]]
    line: List[Fraction]
    is_seen: bool
    worst: Optional[Worst]
    least_eye: Decimal
    least_target: Decimal


def profile_of(heights: Heights, start: Cell, end: Cell, eye: int, above: int, decimals: int) -> Profile:
    """The line of sight between two cells with data.

    Args:
        eye, above: of the target, above the ground in units of 10^-decimals; those of heights may be finer.
    """
    sightline = Sightline(heights, start, end)
    factor = 10 ** (heights.decimals - decimals)
    eye, above = eye * factor, above * factor
    low, high = sightline.ends[0] + eye, sightline.ends[1] + above
    places = list(sightline.ground())
    unit = Fraction(1, 10**heights.decimals)
    worst = sightline.worst(eye, above)
    return Profile([along for along, _ in places], [None if ground is None else ground * unit for _, ground in places],
                   [(low + (high - low) * along) * unit for along, _ in places], sightline.is_seen(eye, above),
                   None if worst is None else replace(worst, excess=worst.excess * unit),
                   *(Decimal(-(-units // factor)).scaleb(-decimals)
                     for units in (sightline.least_eye(above), sightline.least_target(eye))))
