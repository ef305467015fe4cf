"""Cells on the ground: the lengths of their sides and diagonals on the ellipsoid, and where on earth they lie."""
from __future__ import annotations

import math
from dataclasses import dataclass
from typing import List, Optional, Tuple

import numpy as np
from osgeo import osr

from .gdal_errors import raised_errors

# How much longer one side, or one diagonal, of a square cell may be than the other.
MOST_RATIO = 1.01
# Inverse projections are exact to a tenth of a millimetre: shapes of smaller cells are measured over this length.
LEAST_SPAN = 100.0
# From the centre of a cell, in its sides: the ends of its middle row, of its middle column, and of its two diagonals.
ENDS = ((-0.5, 0), (0.5, 0), (0, -0.5), (0, 0.5), (-0.5, -0.5), (0.5, 0.5), (-0.5, 0.5), (0.5, -0.5))

Point = Tuple[float, float]


@dataclass(frozen=True)
class GroundCell:
    """The lengths of a cell in metres: from west to east, from north to south, and of its two diagonals."""

    wide: float
    high: float
    falling: float
    rising: float

    @property
    def ratio(self) -> float:
        """How much longer one side or diagonal is than the other, at least 1; infinite off the earth."""
        pairs = (self.wide, self.high), (self.falling, self.rising)
        return max(max(pair) / min(pair) if min(pair) > 0 and math.isfinite(max(pair)) else math.inf for pair in pairs)

    @property
    def is_square(self) -> bool:
        """Whether sides and diagonals are equal within 1 %."""
        return self.ratio <= MOST_RATIO


def ground_cell(reference: osr.SpatialReference, centre: Point, across: float, down: float) -> GroundCell:
    """A cell by its centre and its sides in the unit of a projection; `down` is below 0."""
    unit = reference.GetAngularUnits() if reference.IsGeographic() else reference.GetLinearUnits()
    length = min(abs(across), abs(down)) * unit * (_semi_axes(reference)[0] if reference.IsGeographic() else 1)
    times = max(1.0, LEAST_SPAN / length)
    ends = [(centre[0] + right * across * times, centre[1] + below * down * times) for right, below in ENDS]
    places = _places_on_earth(reference, ends)
    lengths = np.linalg.norm(places[1::2] - places[0::2], axis=1) / times
    return GroundCell(*(float(length) for length in lengths))


def worst_cell(reference: osr.SpatialReference, centres: List[Point], across: float, down: float) -> GroundCell:
    """Of the cells with these centres the one that is least square."""
    return max((ground_cell(reference, centre, across, down) for centre in centres), key=lambda cell: cell.ratio)


def degrees_of(reference: osr.SpatialReference, point: Point) -> Optional[Point]:
    """Longitude and latitude of a point, by WGS 84 or a datum near it; None: the point lies off the earth."""
    wgs84 = osr.SpatialReference()
    wgs84.ImportFromEPSG(4326)
    wgs84.SetAxisMappingStrategy(osr.OAMS_TRADITIONAL_GIS_ORDER)
    place, = _transformed(reference, wgs84, [point])
    return (float(place[0]), float(place[1])) if np.isfinite(place).all() else None


def conformal_code(longitude: float, latitude: float) -> Tuple[int, str]:
    """The EPSG code and the name of a projection that keeps cells square there: UTM, near a pole UPS."""
    if latitude >= 84:
        return 5041, "UPS North"
    if latitude < -80:
        return 5042, "UPS South"
    zone = int((longitude + 180) // 6) % 60 + 1
    return (32600 + zone, f"UTM zone {zone}N") if latitude >= 0 else (32700 + zone, f"UTM zone {zone}S")


def _places_on_earth(reference: osr.SpatialReference, points: List[Point]) -> np.ndarray:
    """Points in metres from the centre of the earth, (n, 3); infinite or NaN where a point lies off the earth."""
    geographic = reference.CloneGeogCS()
    geographic.SetAxisMappingStrategy(osr.OAMS_TRADITIONAL_GIS_ORDER)
    found = _transformed(reference, geographic, points) if reference.IsProjected() else np.array(points)
    longitude, latitude = (found * geographic.GetAngularUnits()).T
    major, minor = _semi_axes(geographic)
    with np.errstate(invalid="ignore"):
        across = major**2 / np.hypot(major * np.cos(latitude), minor * np.sin(latitude))
        axis = across * np.cos(latitude)
        polar = across * (minor / major)**2 * np.sin(latitude)
        return np.stack([axis * np.cos(longitude), axis * np.sin(longitude), polar], axis=1)


def _semi_axes(reference: osr.SpatialReference) -> Tuple[float, float]:
    return reference.GetSemiMajor(), reference.GetSemiMinor()


def _transformed(source: osr.SpatialReference, target: osr.SpatialReference, points: List[Point]) -> np.ndarray:
    """Points of one reference in another, (n, 2); infinite where they have no place there."""
    with raised_errors():
        change = osr.CoordinateTransformation(source, target)
        return np.array([_moved(change, point) for point in points])


def _moved(change: osr.CoordinateTransformation, point: Point) -> Point:
    try:
        x, y, _ = change.TransformPoint(*point)
    except RuntimeError:
        return math.inf, math.inf
    return x, y
