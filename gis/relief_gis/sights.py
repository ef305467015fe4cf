"""Who sees whom: a table of observers, of how many cells each sees, and of each other one within its radius."""
from __future__ import annotations

import csv
import io
import math
from dataclasses import dataclass
from decimal import Decimal
from typing import TYPE_CHECKING, Iterable, Iterator, List, Optional, Sequence, Tuple

from .curvature import finer
from .heights import Heights
from .making import Place
from .sightline import Sightline

if TYPE_CHECKING:
    from .frame import Frame

COLUMNS = ("number", "name", "x", "y", "eye", "cells", "other", "other_name", "distance", "seen", "least_height")

Row = List[str]


@dataclass(frozen=True)
class Sight:
    """How an observer sees another one.

    Attributes:
        other: the other one's place in the list of observers.
        cells: how far away it is, in sides of a cell.
        is_seen: whether its eye is seen.
        least: the least height above its ground, in units of eyes, at which it is seen.
    """

    other: int
    cells: float
    is_seen: bool
    least: int


def sights_of(at: int, places: Sequence[Place], decimals: int, corner: Tuple[int, int], heights: Heights,
              radius: Optional[int]) -> Iterator[Sight]:
    """How an observer sees each other one within its radius, in their order.

    Args:
        at: its place in the list.
        places: of all observers, with their eyes in units of 10^-decimals; those of heights may be finer.
        corner: the row and the column of the places' grid at which the heights begin.
        radius: in cells; None: all others count.
    """
    place, factor = places[at], finer(heights, decimals)
    for number, other in enumerate(places):
        square = (place.row - other.row) ** 2 + (place.col - other.col) ** 2
        if number != at and (radius is None or square <= radius**2):
            line = Sightline(heights, *((it.row - corner[0], it.col - corner[1]) for it in (place, other)))
            eye, above = ((it.eye or 0) * factor for it in (place, other))
            yield Sight(number, math.sqrt(square), line.is_seen(eye, above), -(-line.least_target(eye) // factor))


def rows_of(number: int, names: Sequence[str], places: Sequence[Place], decimals: int, corner: Tuple[int, int],
            heights: Heights, radius: Optional[int], cells: int, frame: Frame) -> Iterator[Row]:
    """The rows of an observer: one for each other one within its radius, or one alone.

    Args:
        number: of the observer, from 1.
        names: of all observers.
        places: of all observers, in the frame, with their eyes in units of 10^-decimals.
        corner: the row and the column of the frame at which the heights begin.
        radius: of the observer, in cells; None: all others count.
        cells: how many cells it sees.
    """
    place = places[number - 1]
    x, y = frame.centre(place.row, place.col)
    own = [str(number), names[number - 1], f"{x:.3f}", f"{y:.3f}", _height(place.eye, decimals), str(cells)]
    sights = list(sights_of(number - 1, places, decimals, corner, heights, radius))
    for sight in sights:
        yield [*own, str(sight.other + 1), names[sight.other], f"{sight.cells * float(frame.cell):.3f}",
               str(int(sight.is_seen)), _height(sight.least, decimals)]
    if not sights:
        yield [*own, *[""] * (len(COLUMNS) - len(own))]


def table_of(rows: Iterable[Row]) -> str:
    """Rows as a table, by the numbers of the observers."""
    text = io.StringIO()
    table = csv.writer(text, lineterminator="\n")
    table.writerow(COLUMNS)
    table.writerows(sorted(rows, key=lambda row: int(row[0])))
    return text.getvalue()


def _height(units: Optional[int], decimals: int) -> str:
    return f"{Decimal(units or 0).scaleb(-decimals):f}"
