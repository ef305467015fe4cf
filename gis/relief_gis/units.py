"""Exact numbers: heights of eyes and targets in units of 10^-D, sides of cells, lengths in cells."""
from __future__ import annotations

import math
import re
from dataclasses import dataclass
from decimal import Decimal, InvalidOperation, ROUND_UP
from fractions import Fraction
from typing import Mapping, Union

from .errors import UsageError

Number = Union[int, float, str, Decimal]
# Units of lengths and areas in words, in metres and square metres.
LENGTHS = {"m": 1, "km": 1000}
AREAS = {"m2": 1, "ha": 10_000, "km2": 1_000_000}

# The program's limits.
MOST_DECIMALS = 6
MOST_EYE_UNITS = 1_000_000
MOST_HEIGHT_UNITS = 10**15
MOST_RADIUS_CELLS = 8192
# A geotransform has sides and origins as floats, which tools compute: so near to a simple number they stand for it.
NEARNESS = Fraction(1, 10**9)


def decimal_of(value: Number, what: str = "number") -> Decimal:
    """The decimal that a word or number stands for; a float stands for its shortest decimal text.

    Raises:
        UsageError: it is no finite number.
    """
    try:
        number = Decimal(repr(float(value)) if isinstance(value, float) else str(value).strip())
    except InvalidOperation:
        number = Decimal("nan")
    if not number.is_finite():
        raise UsageError(f"{what} {value} is no number")
    return number


@dataclass(frozen=True)
class Measure:
    """A length in metres, or an area in square metres, and the word that gave it."""

    metres: Decimal
    word: str


# A length as a user gives it, and as it is reckoned with.
Reach = Union[Decimal, Fraction, Measure]


def measure_of(word: str, units: Mapping[str, int], what: str) -> Union[Decimal, Measure]:
    """The number, or the number with a unit, that a word stands for, as 5km.

    Raises:
        UsageError: it is neither.
    """
    found = re.fullmatch(rf"(.*\d)\s*({'|'.join(units)})", word.strip()) if units else None
    if found is None:
        return decimal_of(word, what)
    return Measure(decimal_of(found[1], what) * units[found[2]], word)


def decimals_of(value: Decimal) -> int:
    """The least number of decimals with which a number can be written."""
    return max(0, -int(value.normalize().as_tuple().exponent))


def whole_units(value: Decimal, decimals: int, what: str) -> int:
    """A height above ground in units of 10^-decimals.

    Raises:
        UsageError: it is below 0, above 1,000,000 units, or no whole number of units.
    """
    scaled = value.scaleb(decimals)
    if scaled < 0:
        raise UsageError(f"{what} {value} is below 0")
    if scaled != scaled.to_integral_value():
        need = decimals_of(value)
        cure = f"--decimals {need} would do" if need <= MOST_DECIMALS else "give it with at most 6 decimals"
        raise UsageError(f"{what} {value} is no whole number of units of {Decimal(1).scaleb(-decimals):f}: {cure}")
    if scaled > MOST_EYE_UNITS:
        most = Decimal(MOST_EYE_UNITS).scaleb(-decimals).normalize()
        raise UsageError(f"{what} {value} is above {most:f}, the most with {decimals} decimals: give fewer --decimals")
    return int(scaled)


def radius_in_cells(radius: Union[Decimal, Fraction], cell: Fraction) -> int:
    """How many whole cells fit into a radius, at most 8,192, which reaches over any grid.

    Raises:
        UsageError: not even one cell fits.
    """
    cells = math.floor(Fraction(radius) / cell)
    if cells < 1:
        raise UsageError(f"the radius {plain(radius)} is less than a cell of {plain(cell)}")
    return min(cells, MOST_RADIUS_CELLS)


def fraction_of(value: float) -> Fraction:
    """The number whose shortest decimal text is that of a float, as in the header of a raster."""
    return Fraction(Decimal(repr(float(value))))


def side_of(value: float) -> Fraction:
    """The simplest fraction within one part in 10^9 of the side of a cell; it has the sign of the side."""
    exact = Fraction(value)
    return simplest_fraction(exact, abs(exact) * NEARNESS)


def origin_of(value: float, side: Fraction) -> Fraction:
    """The simplest fraction within 10^-9 of a cell of the coordinate at which cells of a side begin."""
    return simplest_fraction(Fraction(value), abs(side) * NEARNESS)


def simplest_fraction(number: Fraction, most: Fraction) -> Fraction:
    """The fraction of least denominator that differs from a number by at most so much; of several the nearest."""
    denominator = _simplest_between(number - most, number + most).denominator
    return Fraction(round(number * denominator), denominator)


def _simplest_between(low: Fraction, high: Fraction) -> Fraction:
    """A fraction of least denominator from one number to another, by their continued fractions."""
    whole = math.ceil(low)
    if whole <= high:
        return Fraction(whole)
    below = whole - 1
    return below + 1 / _simplest_between(1 / (high - below), 1 / (low - below))


def plain(value: Union[Fraction, Decimal, int]) -> str:
    """A number as people write it: without exponent, with at most 10 digits behind the point."""
    if isinstance(value, Fraction):
        value = Decimal(value.numerator) / Decimal(value.denominator)
    text = f"{Decimal(value):.10f}"
    return text.rstrip("0").rstrip(".")


def counted(count: int, one: str = "cell", many: str = "cells") -> str:
    """A number of things, with the words for one or for many of them."""
    return f"{count:,} {one if count == 1 else many}"


def rounded_up(value: Decimal) -> str:
    """A length above 0 with two significant digits, never less than it is."""
    return f"{value.quantize(Decimal(1).scaleb(value.adjusted() - 1), ROUND_UP):f}"
