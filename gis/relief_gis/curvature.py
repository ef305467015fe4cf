"""The earth's curvature and the refraction of light, by which ground far from an observer lies lower."""
from __future__ import annotations

from dataclasses import replace
from decimal import Decimal
from fractions import Fraction
from typing import TYPE_CHECKING, Tuple

import numpy as np

from .blocks import array_of
from .errors import InputError
from .heights import Heights, unit_type
from .making import NODATA_COUNT, Request
from .units import MOST_DECIMALS, MOST_EYE_UNITS, MOST_HEIGHT_UNITS

if TYPE_CHECKING:
    from .frame import Frame

Cell = Tuple[int, int]

REFRACTION = Decimal("0.13")
# Of these `rise` finds heights of up to 10,000.
RISE_DECIMALS = 2
# The semi-major axis of WGS 84, in metres.
EARTH = 6_378_137
# Metres of the units of heights that rasters name.
METRES = {"": Fraction(1), "m": Fraction(1), "metre": Fraction(1), "meter": Fraction(1), "metres": Fraction(1),
          "meters": Fraction(1), "ft": Fraction(3048, 10_000), "foot": Fraction(3048, 10_000),
          "feet": Fraction(3048, 10_000), "international foot": Fraction(3048, 10_000),
          "us survey foot": Fraction(1200, 3937), "ftus": Fraction(1200, 3937), "us-ft": Fraction(1200, 3937)}


def drop_of_a_cell(frame: Frame, unit: str, decimals: int, refraction: Decimal) -> Fraction:
    """By how many units of 10^-decimals ground lies lower at a distance of one cell; it grows with the square.

    The drop is `(1 - refraction) d^2 / 2 R`, with R the semi-major axis of the projection's ellipsoid.

    Args:
        unit: that of heights, as the raster names it.

    Raises:
        InputError: the lengths or heights are in no known unit.
    """
    reference = frame.spatial_reference()
    if reference is None:
        raise InputError("--curvature takes lengths in metres, and the raster has no projection: give --projection")
    if unit.lower() not in METRES:
        raise InputError(f"--curvature takes heights in metres or feet, and those of the raster are in {unit}")
    side = frame.cell * Fraction(reference.GetLinearUnits())
    return drop_of(side, Fraction(reference.GetSemiMajor()), refraction) / METRES[unit.lower()] * 10**decimals


def drop_of(distance: Fraction, radius: Fraction, refraction: Decimal) -> Fraction:
    """By how much ground lies lower at a distance, in its unit, on an earth of a radius."""
    return (1 - Fraction(refraction)) * distance**2 / (2 * radius)


def lowered(heights: Heights, cell: Cell, drop: Fraction, given: int, decimals: int = MOST_DECIMALS) -> Heights:
    """Heights as they lie below the level of an observer's cell, rounded to finer units, halves to even.

    Over level ground a drop that is rounded to the units of heights makes steps, each of which hides what lies behind
    it: of units of a metre two fifths of what is seen.

    Args:
        cell: row and column of the observer, also outside the grid.
        drop: that of `drop_of_a_cell`, in the units of the heights.
        given: the greatest of eyes and targets in these units. Of the finer ones it has as few as the program takes.
        decimals: of the finer units at most, where the heights have no more.
    """
    rows, cols = heights.shape
    across = (np.arange(cols) - cell[1]) ** 2
    furthest = max(cell[0], rows - 1 - cell[0]) ** 2 + int(across.max())
    most = max(map(abs, heights.ends)) + drop * furthest + 1
    factor, finest = 1, 10 ** max(decimals - heights.decimals, 0)
    while factor < finest and given * factor * 10 <= MOST_EYE_UNITS and most * factor * 10 <= MOST_HEIGHT_UNITS:
        factor *= 10
    dtype = unit_type(most * factor)

    def lower(block: slice) -> np.ndarray:
        down = (np.arange(block.start, block.stop) - cell[0]) ** 2
        units = heights.rows(block).astype(dtype) * dtype.type(factor)
        return units - np.rint((down[:, None] + across) * float(drop * factor)).astype(dtype)

    return Heights.of_units(array_of(lower, heights.shape, dtype), heights.valid,
                            heights.decimals + len(str(factor)) - 1)


def curved(request: Request, heights: Heights, drop: Fraction) -> Tuple[Request, Heights]:
    """What the program is asked for, and of which heights, where these drop away from the one observer of a request.

    Of `rise` it finds heights of up to 1,000,000 units, so that finer ones would not do.
    """
    place, = request.places
    eye = place.eye or 0
    ground = lowered(heights, (place.row, place.col), drop, max(eye, request.target),
                     RISE_DECIMALS if request.map == "rise" else MOST_DECIMALS)
    factor = finer(ground, heights.decimals)
    return replace(request, places=[replace(place, eye=eye * factor)], target=request.target * factor), ground


def finer(ground: Heights, decimals: int) -> int:
    """How many units of ground make one of 10^-decimals."""
    return 10 ** (ground.decimals - decimals)


def coarser(name: str, found: np.ndarray, factor: int) -> np.ndarray:
    """What observers see by a map of the program of which so many units make one: of `rise` whole ones, rounded up."""
    if name == "view" or factor == 1:
        return found
    return np.where(found == NODATA_COUNT, np.int32(NODATA_COUNT), -(-found // np.int32(factor)))
