"""A map as it is written: its values, their type, the NODATA value, the unit."""
from __future__ import annotations

import math
from dataclasses import dataclass
from typing import Callable, Optional

import numpy as np

from .blocks import for_rows, row_blocks
from .errors import InputError
from .heights import Heights
from .making import NODATA_CODE, NODATA_COUNT
from .raster import Terrain
from .units import MOST_EYE_UNITS
from .voids import fits, limits

# A float32 tells apart all whole numbers of units up to this one.
MOST_FLOAT32_UNITS = 1 << 23


@dataclass(frozen=True)
class Result:
    """How a map is written.

    Attributes:
        dtype: the type of its values.
        nodata: the NODATA value, or None.
        unit: that of the values, or "".
        values: of rows of what the program wrote, and their slice, what is written.
    """

    dtype: np.dtype
    nodata: Optional[float]
    unit: str
    values: Callable[[np.ndarray, slice], np.ndarray]

    def rows(self, strip: np.ndarray, row: int) -> np.ndarray:
        """Rows of the map as they are written, of what the program wrote from a row on."""
        array = np.empty(strip.shape, self.dtype)
        for block in row_blocks(array.shape):
            array[block] = self.values(strip[block], slice(row + block.start, row + block.stop))
        return array


def result_of(name: str, terrain: Terrain, heights: Heights, found: Optional[np.ndarray] = None,
              threshold: int = 0) -> Optional[Result]:
    """How a map is written; None: what the program writes has to be known, which was not given.

    Args:
        name: of the map.
        terrain: of which its values may be left out.
        found: (rows, cols), what the program wrote for the map.
        threshold: of `streams`.

    Raises:
        InputError: each value of the heights' type is a height, and none is left for NODATA.
    """
    valid = heights.valid
    if name == "fill":
        return _filled(terrain, heights, found)
    if name == "depth":
        return _depth(terrain, heights, found)
    if name == "rise":
        # Of heights that are seen by nobody, however high, there is none.
        dtype = _least_type(heights.decimals, MOST_EYE_UNITS)
        return Result(dtype, NODATA_COUNT, terrain.unit, lambda units, rows: np.where(
            units == NODATA_COUNT, dtype.type(NODATA_COUNT), (units / 10.0**heights.decimals).astype(dtype)))
    if name == "area":
        # One rounding: the area is the float that is nearest to it.
        by, part = map(float, (terrain.frame.cell ** 2).as_integer_ratio())
        return Result(np.dtype(np.float64), NODATA_COUNT, "",
                      lambda cells, rows: np.where(valid[rows], (cells + 1.0) * by / part, NODATA_COUNT))
    if name == "streams":
        return Result(np.dtype(np.uint8), NODATA_CODE, "",
                      lambda cells, rows: np.where(valid[rows], cells > threshold, NODATA_CODE))
    if name == "flow":
        return Result(np.dtype(np.uint8), NODATA_CODE, "",
                      lambda cells, rows: np.where(valid[rows], cells, NODATA_CODE))
    return Result(np.dtype(np.int32), NODATA_COUNT, "", lambda cells, rows: cells)


def _filled(terrain: Terrain, heights: Heights, found: Optional[np.ndarray]) -> Optional[Result]:
    """Filled heights, each of which is the height of some cell: what no height has is no filled height either."""
    dtype = _height_type(terrain, heights)
    nodata = _nodata_for(dtype, terrain.nodata, heights, found)
    if nodata is None and found is None:
        return None
    if nodata is None and not heights.valid.all():
        raise InputError("each value of the heights' type is a height, and none is left for NODATA")
    return Result(dtype, nodata, terrain.unit, _values_of_units(heights, dtype, nodata))


def _depth(terrain: Terrain, heights: Heights, found: Optional[np.ndarray]) -> Optional[Result]:
    if found is None:
        dtype = _least_type(heights.decimals, heights.ends[1] - heights.ends[0])
        if dtype == np.float64:
            # The deepest cell may lie less deep than the lowest height below the highest one.
            return None
    else:
        dtype = _least_type(heights.decimals, max(for_rows(lambda rows: _deepest(heights, found, rows), found.shape)))
    values = _values_of_units(heights, dtype, NODATA_COUNT)
    return Result(dtype, NODATA_COUNT, terrain.unit, lambda cells, rows: values(cells - heights.units[rows], rows))


def _deepest(heights: Heights, found: np.ndarray, rows: slice) -> int:
    return int(np.where(heights.valid[rows], found[rows] - heights.units[rows], 0).max())


def _values_of_units(heights: Heights, dtype: np.dtype, nodata: Optional[float]) -> Callable[..., np.ndarray]:
    """Rows of units as heights of a type, with NODATA."""
    missing = dtype.type(0 if nodata is None else nodata)

    # Units and their quotients of 32 bits are those of 64 bits, rounded: these have more than twice the digits.
    divisor = (np.float32 if dtype == np.float32 else np.float64)(10**heights.decimals)

    def values(cells: np.ndarray, rows: slice) -> np.ndarray:
        plain = cells if heights.decimals == 0 else np.divide(cells, divisor, dtype=divisor.dtype, casting="unsafe")
        plain = plain.astype(dtype, copy=False)
        return plain if heights.valid[rows].all() else np.where(heights.valid[rows], plain, missing)

    return values


def _nodata_for(dtype: np.dtype, wanted: Optional[float], heights: Heights,
                found: Optional[np.ndarray]) -> Optional[float]:
    """A NODATA value that a type has and no datum is: the wanted one if it can be, else -9999, else an end of the type.

    Where all these are data, the greatest integer that is none; None: there is no such value.

    Args:
        dtype: the type of the raster to be written, which tells all units apart.
        wanted: the NODATA value of the raster that was read, or None.
        found: (rows, cols), the data in units where there is data, all of which are heights; None: the heights.
    """
    least, most = limits(dtype)
    for value in (wanted, -9999.0, least, most):
        # No datum is NaN.
        if value is not None and fits(value, dtype) and not _is_datum(value, dtype, heights, found):
            return value
    units = heights.units if found is None else found
    return _greatest_free(units[heights.valid].astype(dtype)) if dtype.kind in "iu" else None


def _is_datum(value: float, dtype: np.dtype, heights: Heights, found: Optional[np.ndarray]) -> bool:
    """Whether a datum, in units, is a value of a type."""
    scaled = float(dtype.type(value)) * 10.0**heights.decimals
    if not abs(scaled) <= np.iinfo(heights.dtype).max:
        return False
    near = [unit for unit in {math.floor(scaled), math.ceil(scaled)}
            if heights.ends[0] <= unit <= heights.ends[1]
            and dtype.type(unit / 10.0**heights.decimals) == dtype.type(value)]
    if not near:
        return False
    units = heights.units if found is None else found
    return any(for_rows(lambda rows: bool(np.any(np.isin(units[rows], near) & heights.valid[rows])), units.shape))


def _greatest_free(data: np.ndarray) -> Optional[int]:
    """The greatest integer of a type that is none of the data, which has the type's ends."""
    least, most = limits(data.dtype)
    used = np.unique(data)[::-1]
    gaps = np.flatnonzero(used != most - np.arange(used.size))
    free = most - (int(gaps[0]) if gaps.size else used.size)
    return free if free >= least else None


def _height_type(terrain: Terrain, heights: Heights) -> np.dtype:
    """The type of filled heights: that of whole heights without a scale, else the least that has all units."""
    own = terrain.values.dtype
    is_scaled = (terrain.scale, terrain.offset) != (1, 0)
    # Few tools read integers of 64 bits.
    if own.kind in "iu" and own.itemsize < 8 and heights.decimals == 0 and not is_scaled:
        return own
    if own == np.float64 and heights.decimals > 0:
        return own
    return _least_type(heights.decimals, max(map(abs, heights.ends)))


def _least_type(decimals: int, most: int) -> np.dtype:
    """The least type in which whole numbers of units up to a greatest one are all told apart."""
    if decimals == 0 and most < np.iinfo(np.int32).max:
        return np.dtype(np.int32)
    return np.dtype(np.float32) if decimals > 0 and most <= MOST_FLOAT32_UNITS else np.dtype(np.float64)
