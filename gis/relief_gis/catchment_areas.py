"""The whole upstream area of each gauge, with the gauges above it: its outline, its size, its heights."""
from __future__ import annotations

from dataclasses import dataclass
from fractions import Fraction
from typing import Dict, Iterator, List, Optional, Sequence, Tuple

import numpy as np
from osgeo import gdal, ogr

from .blocks import for_rows
from .edges import STEPS
from .frame import Frame
from .heights import Heights
from .layers import Feature, write_layer
from .making import Place, edge_cells

FIELDS = (("number", int), ("name", str), ("below", int), ("cells", int), ("own_cells", int), ("area", float),
          ("area_km2", float), ("mean", float), ("least", float), ("greatest", float), ("edge_cells", int),
          ("uncertain", int))

Slices = Tuple[slice, slice]


@dataclass(frozen=True)
class Basis:
    """What areas are worked out of.

    Attributes:
        gauges: in their order.
        numbers: (rows, cols), the map of catchments.
        codes: (rows, cols) uint8, D8 directions.
        uncertain: (rows, cols) bool, the cells downstream of where the data ends.
    """

    gauges: Sequence[Place]
    numbers: np.ndarray
    codes: np.ndarray
    uncertain: np.ndarray
    heights: Heights
    frame: Frame


@dataclass
class _Own:
    """The cells that have a gauge's number: the box that holds them, and what they sum up to."""

    box: Slices
    cells: int
    total: int
    least: int
    greatest: int
    edge: int
    uncertain: int


def write_areas(path: str, basis: Basis) -> None:
    """Writes the areas as a GeoPackage of polygons, one for each gauge.

    Raises:
        DeviceError, OSError: the file could not be written.
    """
    write_layer(path, "catchments", ogr.wkbMultiPolygon, FIELDS, _features(basis), basis.frame)


def _features(basis: Basis) -> Iterator[Feature]:
    first: Dict[Tuple[int, int], int] = {}
    same = [first.setdefault((gauge.row, gauge.col), number) for number, gauge in enumerate(basis.gauges, 1)]
    own = {number: found for number, found in zip(range(1, len(same) + 1), _own_cells(basis)) if found is not None}
    below = {number: _number_below(basis, basis.gauges[number - 1]) for number in own}
    above: Dict[int, List[int]] = {number: [] for number in own}
    for number in own:
        at: Optional[int] = number
        while at:
            above[at].append(number)
            at = below[at]
    for number, gauge in enumerate(basis.gauges, 1):
        # Of gauges in one cell the first has the number, and all have the area.
        chosen = same[number - 1]
        parts = [own[it] for it in above[chosen]]
        cells = sum(part.cells for part in parts)
        scale = Fraction(1, 10**basis.heights.decimals)
        area = cells * basis.frame.cell**2
        yield _outline(basis, parts, above[chosen]), (
            number, gauge.name, below[chosen] or None, cells, own[number].cells if number in own else 0, float(area),
            _square_kilometres(basis.frame, area), float(sum(part.total for part in parts) * scale / cells),
            float(min(part.least for part in parts) * scale), float(max(part.greatest for part in parts) * scale),
            sum(part.edge for part in parts), sum(part.uncertain for part in parts))


def _square_kilometres(frame: Frame, area: Fraction) -> Optional[float]:
    """An area in square kilometres; None: the unit of its lengths is not known."""
    reference = frame.spatial_reference()
    return None if reference is None else float(area * Fraction(reference.GetLinearUnits()) ** 2 / 10**6)


def _own_cells(basis: Basis) -> Iterator[Optional[_Own]]:
    """What the cells of each number sum up to; None: no cell has it."""
    rows, cols = (_found_along(basis, axis) for axis in (0, 1))
    edges = edge_cells(basis.heights.valid)
    for gauge in basis.gauges:
        # Where the data ends at the gauge itself, its water runs out and none runs in.
        edges[gauge.row, gauge.col] = False
    for number in range(1, len(basis.gauges) + 1):
        if not rows[:, number].any():
            yield None
            continue
        box = _ends(rows[:, number]), _ends(cols[:, number])
        chosen = basis.numbers[box] == number
        units = basis.heights.units[box][chosen]
        yield _Own(box, units.size, int(units.sum(dtype=object)) if units.dtype == np.int64 else int(units.sum()),
                   int(units.min()), int(units.max()), int(np.count_nonzero(edges[box] & chosen)),
                   int(np.count_nonzero(basis.uncertain[box] & chosen)))


def _found_along(basis: Basis, axis: int) -> np.ndarray:
    """Which numbers each row (axis 0) or each column has: (rows or cols, numbers from 0) bool."""
    found = np.zeros((basis.numbers.shape[axis], len(basis.gauges) + 1), bool)

    def mark(rows: slice) -> None:
        numbers = np.maximum(basis.numbers[rows], 0)
        found[np.indices(numbers.shape, sparse=True)[axis] + (rows.start if axis == 0 else 0), numbers] = True

    for_rows(mark, basis.numbers.shape)
    return found


def _ends(found: np.ndarray) -> slice:
    places = np.flatnonzero(found)
    return slice(int(places[0]), int(places[-1]) + 1)


def _number_below(basis: Basis, gauge: Place) -> int:
    """The number of the gauge that the water of a gauge meets next, or 0."""
    code = int(basis.codes[gauge.row, gauge.col])
    if code not in STEPS:
        return 0
    down, right = STEPS[code]
    return int(basis.numbers[gauge.row + down, gauge.col + right])


def _outline(basis: Basis, parts: Sequence[_Own], numbers: Sequence[int]) -> ogr.Geometry:
    """The outline of the cells that have one of some numbers; its parts meet at corners alone."""
    top, left = (min(part.box[axis].start for part in parts) for axis in (0, 1))
    bottom, right = (max(part.box[axis].stop for part in parts) for axis in (0, 1))
    frame = basis.frame.part((left, top, right - left, bottom - top))
    mask = np.isin(basis.numbers[top:bottom, left:right], numbers).astype(np.uint8)
    raster = gdal.GetDriverByName("MEM").Create("", frame.cols, frame.rows, 1, gdal.GDT_Byte)
    raster.SetGeoTransform(frame.geotransform)
    band = raster.GetRasterBand(1)
    band.WriteArray(mask)
    source = ogr.GetDriverByName("Memory").CreateDataSource("")
    layer = source.CreateLayer("parts", None, ogr.wkbPolygon)
    gdal.Polygonize(band, band, layer, -1)
    outline = ogr.Geometry(ogr.wkbMultiPolygon)
    for feature in layer:
        outline.AddGeometry(feature.GetGeometryRef())
    return outline
