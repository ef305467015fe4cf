"""Heights as whole numbers of units, which `relief` takes, from arrays of any type."""
from __future__ import annotations

import math
from decimal import Decimal
from fractions import Fraction
from typing import Any, Callable, List, Optional, Tuple, Union

import numpy as np

from .blocks import array_of, data_ends, for_rows, row_blocks, rows_of
from .errors import InputError
from .rounding import round_floats, round_integers
from .units import MOST_DECIMALS, MOST_HEIGHT_UNITS, decimals_of

# Most cells of a side that the program takes.
MOST_SIDE = 4096
# Differences of units below it have 32 bits.
MOST_NARROW = 1 << 30
# Writes the units of some rows; how far these are from what was read at most, in units, and whether all are exact.
Convert = Callable[[slice, np.ndarray], Tuple[Union[float, Decimal], bool]]


class Heights:
    """Heights in units of 10^-decimals, of which each block of rows is worked out when it is first asked for.

    So the program reads the first rows while the last ones are rounded.

    Args:
        valid: (rows, cols) bool, where there is data.
        decimals: 0 to 6.
        ends: the least and the greatest height in units; 0 and 0 where there is no data.
        dtype: the type of units, int64, or int32 where all are below 2^30.
        convert: writes the units of the rows of a block.
    """

    def __init__(self, valid: np.ndarray, decimals: int, ends: Tuple[int, int], dtype: np.dtype,
                 convert: Convert) -> None:
        self.valid, self.decimals, self.ends = valid, decimals, ends
        # Whether nobody asks for the units once the program has them.
        self.is_read_once = False
        self._units = np.empty(valid.shape, dtype)
        self._blocks = row_blocks(valid.shape)
        self._is_known = bytearray(len(self._blocks))
        self._convert: Optional[Convert] = convert
        self._roundings: List[Tuple[Union[float, Decimal], bool]] = []

    @classmethod
    def of_units(cls, units: np.ndarray, valid: np.ndarray, decimals: int, rounding: Decimal = Decimal(0)) -> Heights:
        """Heights of which all units are known, and by how many units they were rounded at most."""
        low, high = data_ends(units, valid) or (0, 0)
        known = cls(valid, decimals, (int(low), int(high)), units.dtype, lambda rows, out: (0, True))
        known._units, known._convert, known._roundings = units, None, [(rounding, rounding == 0)]
        return known

    @property
    def shape(self) -> Tuple[int, ...]:
        """Rows and columns."""
        return self.valid.shape

    @property
    def dtype(self) -> np.dtype:
        """The type of units."""
        return self._units.dtype

    @property
    def units(self) -> np.ndarray:
        """(rows, cols) integers; any number where there is no data."""
        if self._convert is not None:
            for_rows(self._work_out, self.shape)
        return self._units

    @property
    def rounding(self) -> Decimal:
        """The greatest difference of a height from what was read; 0 where each was exact to its type."""
        self._work_out(slice(0, self.shape[0]))
        furthest, is_exact = zip(*self._roundings)
        return Decimal(0) if all(is_exact) else Decimal(max(furthest)).scaleb(-self.decimals)

    def rows(self, rows: slice) -> np.ndarray:
        """Rows of `units`."""
        self._work_out(rows)
        return self._units[rows]

    def part(self, cut: Tuple[slice, slice]) -> Heights:
        """The heights of some rows and columns."""
        first, last, _ = cut[0].indices(self.shape[0])
        for_rows(lambda rows: self._work_out(slice(first + rows.start, first + rows.stop)), (last - first, self.shape[1]))
        return Heights.of_units(self.rows(cut[0])[:, cut[1]], self.valid[cut], self.decimals)

    def drop_units(self) -> None:
        """Frees the units, where nobody asks for them again.

        They stay where a program broke off before all were worked out: by how much they are rounded is told yet.
        """
        if self._convert is None:
            self._units = np.empty((0, 0), self.dtype)

    def _work_out(self, rows: slice) -> None:
        """Works out the units of rows. Blocks that two threads ask for may be worked out twice, to the same units."""
        step = self._blocks[0].stop
        # From the last one on: the program takes them from the first one on.
        for at in reversed(range(rows.start // step, min(-(-rows.stop // step), len(self._blocks)))):
            # In this order: units are freed once all are worked out.
            units, convert, block = self._units, self._convert, self._blocks[at]
            if convert is not None and not self._is_known[at]:
                self._roundings.append(convert(block, units[block]))
                self._is_known[at] = True
        if all(self._is_known):
            # It keeps what was read.
            self._convert = None

    def values(self, units: np.ndarray, dtype: np.dtype) -> np.ndarray:
        """Units as heights of a type: (rows, cols)."""
        if self.decimals == 0:
            return units.astype(dtype)
        return array_of(lambda rows: units[rows] / 10.0**self.decimals, units.shape, dtype)


def heights_of(values: np.ndarray, valid: np.ndarray, decimals: int,
               ends: Optional[Tuple[Any, Any]] = None) -> Heights:
    """Heights in units, rounded to the nearest where they have more decimals, halves to even, by their exact values.

    Args:
        values: (rows, cols), integers or floats.
        valid: (rows, cols) bool, where there is data; NaN is never data.
        decimals: 0 to 6.
        ends: the least and the greatest value where there is data, if they are known.

    Raises:
        InputError: a shape, type or number of decimals that has no map, or a height that is infinite or past
            10^15 units.
    """
    check_shape(values.shape)
    if not 0 <= decimals <= MOST_DECIMALS:
        raise InputError(f"{decimals} decimals are not 0 to {MOST_DECIMALS}")
    if values.dtype.kind not in "iuf":
        raise InputError(f"heights of type {values.dtype} are neither integers nor floats")
    ends = ends or data_ends(values, valid) or (0, 0)
    if values.dtype.kind == "f":
        return _from_floats(values, valid, decimals, ends)
    return _from_integers(values, valid, decimals, int(ends[0]), int(ends[1]))


def check_shape(shape: tuple) -> None:
    """Raises InputError where an array is no grid of 1 to 4,096 rows and columns."""
    if len(shape) != 2:
        raise InputError(f"an array of {len(shape)} dimensions is no grid")
    if not all(1 <= side <= MOST_SIDE for side in shape):
        raise InputError(f"{shape[1]} columns and {shape[0]} rows are not 1 to {MOST_SIDE:,} each")


def unit_type(most: Union[float, Fraction]) -> np.dtype:
    """The type of units up to a greatest one."""
    return np.dtype(np.int32 if most < MOST_NARROW else np.int64)


def _from_integers(values: np.ndarray, valid: np.ndarray, decimals: int, low: int, high: int) -> Heights:
    factor = 10**decimals
    most = max(abs(low), abs(high)) * factor
    _check_size(most)
    dtype = unit_type(most)

    def convert(rows: slice, units: np.ndarray) -> Tuple[float, bool]:
        np.multiply(rows_of(values, valid, rows), factor, out=units, dtype=dtype, casting="unsafe")
        return 0.0, True

    return Heights(valid, decimals, (low * factor, high * factor), dtype, convert)


def _from_floats(values: np.ndarray, valid: np.ndarray, decimals: int, ends: Tuple[Any, Any]) -> Heights:
    factor = 10**decimals
    low, high = ends
    if np.isnan(low):
        # So is the least one where one is.
        valid = valid & ~np.isnan(values)
        low, high = data_ends(values, valid) or (0.0, 0.0)
    most = float(max(abs(low), abs(high)))
    if math.isinf(most):
        raise InputError("a height is infinite")
    _check_size(most * factor)
    dtype = unit_type(most * factor)

    def convert(rows: slice, units: np.ndarray) -> Tuple[float, bool]:
        part = rows_of(values, valid, rows)
        found, rest = round_floats(part, factor)
        units[...] = found
        found /= factor
        # A float32 that is the nearest to a decimal stands for it, and nothing is rounded.
        return float(max(rest.max(), -rest.min())), np.array_equal(found.astype(values.dtype), part)

    (least, most), _ = round_floats(np.array([low, high], values.dtype), factor)
    return Heights(valid, decimals, (int(least), int(most)), dtype, convert)


def _check_size(most: Union[float, Fraction]) -> None:
    if most > MOST_HEIGHT_UNITS:
        raise InputError("a height is past 10^15 units: give fewer decimals, or name the NODATA value")


def scaled_decimals(scale: float, offset: float) -> int:
    """The decimals of heights `value * scale + offset`, each number taken as its shortest decimal text."""
    return max(decimals_of(Decimal(repr(scale))), decimals_of(Decimal(repr(offset))))


def scaled_integers(values: np.ndarray, valid: np.ndarray, scale: float, offset: float, decimals: int) -> Heights:
    """Heights `value * scale + offset` of integers, as a raster's band may define them, by exact decimals.

    Args:
        values: (rows, cols), integers.
        valid: (rows, cols) bool, where there is data.
        scale: the band's factor, finite, taken as its shortest decimal text.
        offset: the band's offset, likewise.
        decimals: 0 to 6; heights that have more are rounded to the nearest, halves to even.

    Raises:
        InputError: a height is past 10^15 units.
    """
    factor, shift = (Fraction(Decimal(repr(number))) * 10**decimals for number in (scale, offset))
    low, high = map(int, data_ends(values, valid) or (0, 0))
    most = max(abs(factor * low + shift), abs(factor * high + shift))
    _check_size(most)
    known = np.where(valid, values, values.dtype.type(low))
    units, furthest = round_integers(known, factor, shift, unit_type(most + 1))
    rounding = Decimal(furthest.numerator) / Decimal(furthest.denominator)
    return Heights.of_units(units, valid, decimals, rounding)


def default_decimals(dtype: np.dtype) -> int:
    """Decimals of heights of a type, where the user names none: 0 of integers, 2 of floats."""
    return 0 if dtype.kind in "iu" else 2
