"""Lengths and areas of a job that were given in metres, in the unit of its raster."""
from __future__ import annotations

import math
from dataclasses import replace
from fractions import Fraction
from typing import TYPE_CHECKING, Optional

from .errors import UsageError
from .frame import Frame
from .points import Point
from .units import Measure, Reach, side_of

if TYPE_CHECKING:
    from .job import Job


def in_units_of(frame: Frame, job: Job) -> Job:
    """A job with its radii in the unit of a projection, and its threshold in cells.

    Raises:
        UsageError: one was given in metres, and the raster has no projection.
    """
    places = [replace(place, radius=_length(place.radius, frame)) if isinstance(place, Point) else place
              for place in job.places]
    threshold = job.threshold
    if isinstance(threshold, Measure):
        # More than so many square metres are more than so many cells.
        threshold = math.floor(Fraction(threshold.metres) / (frame.cell * _metres(frame, threshold)) ** 2)
    return replace(job, places=places, radius=_length(job.radius, frame), threshold=threshold)


def _length(radius: Optional[Reach], frame: Frame) -> Optional[Reach]:
    return Fraction(radius.metres) / _metres(frame, radius) if isinstance(radius, Measure) else radius


def _metres(frame: Frame, measure: Measure) -> Fraction:
    """The length of a projection's unit."""
    reference = frame.spatial_reference()
    if reference is None:
        raise UsageError(f"{measure.word} takes a projection, and the raster has none: give a number in the unit of "
                         "its coordinates")
    return side_of(reference.GetLinearUnits())
