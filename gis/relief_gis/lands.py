"""The land of a job: what is doubtful in a raster, its holes, and its heights in units."""
from __future__ import annotations

import math
from dataclasses import replace
from decimal import Decimal
from typing import TYPE_CHECKING, Callable, Optional

import numpy as np

from . import cures
from .curvature import METRES
from .doubts import doubtful_heights
from .errors import InputError
from .frame import Frame
from .heights import Heights, default_decimals, heights_of, scaled_decimals, scaled_integers
from .making import SIGHT
from .raster import Terrain, fill_holes
from .units import MOST_DECIMALS, counted, rounded_up
from .voids import Holes, find_holes

if TYPE_CHECKING:
    from .job import Job

Say = Callable[[str], None]


def tell_units(frame: Frame, unit: str, job: Job, say: Say) -> None:
    """Says which units are not metres, where that matters for a job."""
    has_radius = job.radius is not None or any(getattr(place, "radius", None) is not None for place in job.places)
    if has_radius or job.map == "area":
        tell_unit_of_lengths(frame, say)
    if job.map in SIGHT:
        tell_unit_of_heights(unit, say)


def tell_unit_of_lengths(frame: Frame, say: Say) -> None:
    """Says that lengths are not metres, or stretched."""
    reference = frame.spatial_reference()
    if reference is not None:
        if abs(reference.GetLinearUnits() - 1) > 1e-9:
            say(f"the projection's unit is {reference.GetLinearUnitsName()}: radius and area are in it, not in metres")
        if "mercator" in (reference.GetAttrValue("PROJECTION") or "").lower().replace("transverse_mercator", ""):
            say("a Mercator projection stretches lengths away from the equator: radius and area are stretched too")


def tell_unit_of_heights(unit: str, say: Say) -> None:
    """Says that heights are not in metres."""
    if METRES.get(unit.lower()) != 1:
        say(f"heights are in {unit}: eyes and targets are in it, not in metres")


def checked(terrain: Terrain, job: Job, say: Say) -> Terrain:
    """The terrain as its holes inside the land are to be treated; says what is doubtful in it.

    Raises:
        InputError: it has holes, and the job refuses them.
    """
    for line in doubtful_heights(terrain):
        say(line)
    holes = find_holes(~terrain.valid)
    if not holes.count:
        return terrain
    found = f"voids: {counted(holes.cell_count)} in {counted(holes.count, 'hole', 'holes')} inside the land"
    if job.voids == "refuse":
        drained = "leaves them, and they block no view" if job.map in SIGHT else "lets water out"
        raise InputError(f"{found}: --voids fill interpolates, --voids drain {drained}")
    if job.voids == "drain":
        say(f"{found}, left as they are")
        return terrain
    return _filled(terrain, holes, found, say)


def _filled(terrain: Terrain, holes: Holes, found: str, say: Say) -> Terrain:
    cells = holes.cells
    fill_holes(terrain.values, terrain.valid, cells, holes.longest_side + 1)
    rest = int(np.count_nonzero(~terrain.valid)) - holes.cell_count
    left = counted(rest, "cell that reaches the border stays", "cells that reach the border stay")
    say(f"{found}, interpolated; {left} without data")
    return replace(terrain, valid=terrain.valid | cells)


def heights_in_units(terrain: Terrain, decimals: Optional[int]) -> Heights:
    """The heights of a terrain.

    Args:
        decimals: that are kept; None: by the raster's type.

    Raises:
        InputError: there is no data, or heights that cannot be whole numbers of units.
    """
    if not terrain.valid.any():
        raise InputError(f"{terrain.source.path} has no data")
    if (terrain.scale, terrain.offset) != (1.0, 0.0):
        return _scaled(terrain, decimals)
    kept = default_decimals(terrain.values.dtype) if decimals is None else decimals
    return heights_of(terrain.values, terrain.valid, kept, terrain.ends)


def tell_rounding(rounding: Decimal, decimals: int, say: Say) -> None:
    """Says by how much heights were rounded at most, where they were."""
    if rounding > 0:
        say(f"heights rounded to {Decimal(1).scaleb(-decimals):f}, by at most {rounded_up(rounding)}")


def _scaled(terrain: Terrain, decimals: Optional[int]) -> Heights:
    """Heights of a band with a scale or an offset."""
    told = f"{terrain.source.path} has heights of {terrain.scale} * value + {terrain.offset}"
    if not (math.isfinite(terrain.scale) and math.isfinite(terrain.offset)):
        raise InputError(f"{told}, which are no numbers")
    if terrain.values.dtype.kind not in "iu":
        raise InputError(f"{told}, and its values are floats: work them out first: {cures.unscale(terrain.source)}")
    need = scaled_decimals(terrain.scale, terrain.offset)
    if decimals is None and need > MOST_DECIMALS:
        raise InputError(f"{told}, with {need} decimals, and {MOST_DECIMALS} is the most: give --decimals N to "
                         f"round them, or make them floats: {cures.unscale(terrain.source)}")
    return scaled_integers(terrain.values, terrain.valid, terrain.scale, terrain.offset,
                           need if decimals is None else decimals)
