"""Where a raster lies: its geotransform and projection, with the exact numbers that they stand for."""
from __future__ import annotations

import math
from dataclasses import dataclass, replace
from fractions import Fraction
from functools import cached_property
from typing import Optional, Tuple

from osgeo import osr

from .errors import UsageError
from .gdal_errors import raised_errors
from .units import origin_of, side_of

Geotransform = Tuple[float, float, float, float, float, float]
Window = Tuple[int, int, int, int]
Bounds = Tuple[Fraction, Fraction, Fraction, Fraction]


@dataclass(frozen=True)
class Frame:
    """Where a raster lies: its geotransform and projection (WKT, empty: none), columns and rows.

    Sides and origin of its cells are taken as the simplest fractions that their floats stand for.
    """

    geotransform: Geotransform
    projection: str
    cols: int
    rows: int
    is_point: bool = False
    # The exact origin of a part, which its rounded float need not stand for.
    origin: Optional[Tuple[Fraction, Fraction]] = None

    @cached_property
    def across(self) -> Fraction:
        """The width of a cell."""
        return side_of(self.geotransform[1])

    @cached_property
    def down(self) -> Fraction:
        """The height of a cell, below 0 where rows run from north to south."""
        return side_of(self.geotransform[5])

    @cached_property
    def corner(self) -> Tuple[Fraction, Fraction]:
        """The coordinates of the first cell's outer corner."""
        if self.origin is not None:
            return self.origin
        return origin_of(self.geotransform[0], self.across), origin_of(self.geotransform[3], self.down)

    @property
    def cell(self) -> Fraction:
        """The side of a cell."""
        return self.across

    def columns_to(self, x: Fraction) -> Fraction:
        """How many cells lie between the first column's outer side and a coordinate."""
        return (x - self.corner[0]) / self.across

    def rows_to(self, y: Fraction) -> Fraction:
        """How many cells lie between the first row's outer side and a coordinate."""
        return (y - self.corner[1]) / self.down

    def cell_at(self, x: Fraction, y: Fraction) -> Tuple[int, int]:
        """Row and column of the cell that holds a point; of a border the cell in the east or the south."""
        return math.floor(self.rows_to(y)), math.floor(self.columns_to(x))

    def centre(self, row: int, col: int) -> Tuple[float, float]:
        """The coordinates of a cell's centre."""
        half = Fraction(1, 2)
        return float(self.corner[0] + (col + half) * self.across), float(self.corner[1] + (row + half) * self.down)

    def has(self, row: int, col: int) -> bool:
        """Whether a cell lies in the raster."""
        return 0 <= row < self.rows and 0 <= col < self.cols

    def part(self, window: Window) -> Frame:
        """The frame of a window of the raster."""
        left, top, cols, rows = window
        x, y = self.corner[0] + left * self.across, self.corner[1] + top * self.down
        west, across, turn, north, tilt, down = self.geotransform
        moved = (float(x) if left else west, across, turn, float(y) if top else north, tilt, down)
        return replace(self, geotransform=moved, cols=cols, rows=rows, origin=(x, y))

    def spatial_reference(self) -> Optional[osr.SpatialReference]:
        """The projection with x before y, or None."""
        return reference_of(self.projection) if self.projection else None


def reference_of(words: str) -> osr.SpatialReference:
    """A projection by any words that GDAL takes, as EPSG:32632, with x before y.

    Raises:
        UsageError: GDAL knows no such projection.
    """
    reference = osr.SpatialReference()
    try:
        with raised_errors():
            reference.SetFromUserInput(words)
    except RuntimeError as error:
        raise UsageError(f"no projection {words}: {error}") from None
    reference.SetAxisMappingStrategy(osr.OAMS_TRADITIONAL_GIS_ORDER)
    return reference
