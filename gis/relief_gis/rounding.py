"""Rounding of heights to whole numbers of units, to the nearest and halves to even, judged by exact values."""
from __future__ import annotations

import math
from fractions import Fraction
from typing import Tuple

import numpy as np

from .blocks import array_of, for_rows

# Whole numbers below it, and twice as large ones, are exact in 64 bits.
MOST_EXACT = 2**62


def round_floats(values: np.ndarray, factor: int) -> Tuple[np.ndarray, np.ndarray]:
    """The whole numbers nearest to values times a power of ten, and how far the products are from them.

    Args:
        values: floats with products of at most 2^50.
        factor: 1 to 10^6.

    Returns:
        floats of the shape of the values, of 64 bits or more.
    """
    if values.dtype.itemsize < 8:
        # Their products are exact in 64 bits.
        products = values.astype(np.float64)
        products *= factor
        units = np.rint(products)
        products -= units
        return units, products
    products = values * factor
    units = np.rint(products)
    rest = products - units
    # What the products lost when they were rounded (Dekker 1971): the factor is short, so halves of the values will do.
    splitter = values.dtype.type(2 ** ((np.finfo(values.dtype).nmant + 2) // 2) + 1)
    high = splitter * values
    high -= high - values
    lost = (high * factor - products) + (values - high) * factor
    # Where a rounded product lies halfway, the exact one may lie beyond, off the even number.
    beyond = np.where((np.abs(rest) == 0.5) & (rest * lost > 0), np.copysign(1, rest), 0)
    return units + beyond, rest + lost - beyond


def round_integers(values: np.ndarray, factor: Fraction, shift: Fraction,
                   dtype: "np.typing.DTypeLike" = np.int64) -> Tuple[np.ndarray, Fraction]:
    """The whole numbers nearest to `value * factor + shift`, and the greatest distance from them.

    Args:
        values: (rows, cols) integers, with results of at most 10^15.
        dtype: an integer type that has all results.

    Returns:
        (rows, cols) of that type, and an exact number.
    """
    divisor = math.lcm(factor.denominator, shift.denominator)
    by, add = int(factor * divisor), int(shift * divisor)
    most = max(abs(int(values.min())), abs(int(values.max()))) * abs(by) + abs(add) + divisor
    if most < MOST_EXACT:
        return _round_quotients(values, by, add, divisor, dtype)
    # By Python's numbers of any length: heights have far fewer values than cells.
    found = np.unique(values)
    numerators = [int(value) * by + add for value in found]
    rounded = [_nearest(numerator, divisor) for numerator in numerators]
    furthest = max(abs(numerator - unit * divisor) for numerator, unit in zip(numerators, rounded))
    table = np.array(rounded, dtype)
    units = array_of(lambda rows: table[np.searchsorted(found, values[rows])], values.shape, dtype)
    return units, Fraction(furthest, divisor)


def _nearest(numerator: int, divisor: int) -> int:
    whole, rest = divmod(numerator, divisor)
    return whole + (2 * rest + whole % 2 > divisor)


def _round_quotients(values: np.ndarray, by: int, add: int, divisor: int,
                     dtype: "np.typing.DTypeLike") -> Tuple[np.ndarray, Fraction]:
    units = np.empty(values.shape, dtype)

    def convert(rows: slice) -> int:
        numerators = values[rows].astype(np.int64) * by + add
        whole = numerators // divisor
        rest = numerators - whole * divisor
        units[rows] = whole + (2 * rest + whole % 2 > divisor)
        return int(np.minimum(rest, divisor - rest).max())

    furthest = max(for_rows(convert, values.shape))
    return units, Fraction(furthest, divisor)
