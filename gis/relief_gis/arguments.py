"""The arguments of the Python functions: whole numbers, places and values without data, or a named error."""
from __future__ import annotations

import numbers
from decimal import Decimal
from fractions import Fraction
from typing import Any, Iterable, List, Optional, Sequence, Tuple, Union

import numpy as np

from .curvature import drop_of
from .errors import InputError, UsageError
from .making import Place
from .units import MOST_RADIUS_CELLS, decimal_of, plain, side_of, whole_units

MOST_WORKERS = 64
# Outside any grid, and still a number that the program takes.
FAR = 1 << 31


def whole_number(value: Any, name: str, least: int, most: int, unit: str = "") -> int:
    """A whole number, also as a numpy type or a float.

    Raises:
        InputError: it is no whole number from least to most.
    """
    text = f"{name}={shown(value)}"
    number = _whole(value)
    if number is None:
        raise InputError(f"{text} is no whole number{unit}")
    if not least <= number <= most:
        raise InputError(f"{text} is not {least} to {most:,}{unit}")
    return number


def radius_of(radius: Any) -> Optional[int]:
    """The argument `radius`, in cells; None: over the whole grid."""
    return None if radius is None else whole_number(radius, "radius", 1, MOST_RADIUS_CELLS, " of cells")


def number_of(value: Any, name: str, cure: str = "") -> Union[int, float]:
    """A number that means that there is no data.

    Raises:
        InputError: it is no number.
    """
    if isinstance(value, np.ndarray) and value.size == 1:
        value = value.item()
    if isinstance(value, bool) or not isinstance(value, (numbers.Real, Decimal)):
        raise InputError(f"{name}={shown(value)} is no number{cure}")
    return int(value) if isinstance(value, numbers.Integral) else value  # type: ignore[return-value]


def cells_named(cells: Iterable[Any], name: str) -> List[Place]:
    """The places of a list of (row, column), by the name of the argument.

    Raises:
        InputError: one of them is no pair of whole numbers from 0.
    """
    return [Place(f"{name}[{at}]", *_cell(cell, f"{name}[{at}]", 2)[:2]) for at, cell in _listed(cells, name)]


def observers_named(observers: Iterable[Any], decimals: int) -> List[Place]:
    """The places of a list of (row, column, eye).

    Raises:
        InputError: one of them is no such triple, or its row or column is no whole number from 0.
        UsageError: an eye is no whole number of units of 10^-decimals.
    """
    found = []
    for at, observer in _listed(observers, "observers"):
        name = f"observers[{at}]"
        row, col, eye = _cell(observer, name, 3)
        found.append(Place(name, row, col, units_of(eye, decimals, f"{name}: eye")))
    return found


def units_of(height: Any, decimals: int, name: str) -> int:
    """A height above ground in units of 10^-decimals.

    Raises:
        UsageError: it is no whole number of units from 0.
    """
    return whole_units(decimal_of(height, name), decimals, name)


def drop_of_arguments(cell: Any, curvature: bool, refraction: Any, earth: Any, decimals: int) -> Optional[Fraction]:
    """By how many units of 10^-decimals ground drops over a cell; it grows with the square. None: it does not.

    Raises:
        UsageError: the side of a cell is missing where curvature counts, or a number is none.
    """
    if not curvature:
        return None
    if cell is None:
        raise UsageError("curvature takes cell=, the side of a cell in the unit of the heights")
    share = decimal_of(refraction, "refraction")
    if not 0 <= share <= 1:
        raise UsageError(f"refraction={shown(refraction)} is not 0 to 1")
    side, radius = (side_of(float(decimal_of(length, name))) for length, name in ((cell, "cell"), (earth, "earth")))
    for length, name in ((side, "cell"), (radius, "earth")):
        if length <= 0:
            raise UsageError(f"{name}={plain(length)} is not above 0")
    return drop_of(side, radius, share) * 10**decimals


def needed(places: Sequence[Place], name: str) -> Sequence[Place]:
    """Raises InputError where a list that a map needs is empty."""
    if not places:
        raise InputError(f"{name}= is empty: name at least one cell")
    return places


def _listed(cells: Iterable[Any], name: str) -> Iterable[Tuple[int, Any]]:
    if isinstance(cells, (str, bytes)) or not hasattr(cells, "__iter__"):
        raise InputError(f"{name}={shown(cells)} is no list of cells")
    return enumerate(cells)


def _cell(cell: Any, name: str, count: int) -> Tuple[int, int, Any]:
    """Row, column and what follows them; None where nothing does."""
    form = "(row, column)" if count == 2 else "(row, column, eye)"
    if isinstance(cell, (str, bytes)) or not hasattr(cell, "__len__") or len(cell) != count:
        raise InputError(f"{name}={shown(cell)} is not {form}")
    row, col, *rest = cell
    places = _whole(row), _whole(col)
    if places[0] is None or places[1] is None:
        raise InputError(f"{name}={shown(cell)} is not {form}: row and column are no whole numbers")
    if min(places) < 0:
        raise InputError(f"{name}={shown(cell)} lies outside the grid: rows and columns count from 0")
    return min(places[0], FAR), min(places[1], FAR), rest[0] if rest else None


def _whole(value: Any) -> Optional[int]:
    """A whole number as int; None: it is none. True is no number here."""
    if isinstance(value, np.ndarray) and value.ndim == 0:
        value = value.item()
    if isinstance(value, (bool, np.bool_)) or not isinstance(value, (numbers.Real, Decimal)):
        return None
    try:
        number = int(value)
    except (ValueError, OverflowError):
        return None
    return number if number == value else None


def shown(value: Any) -> str:
    """A value in a message, cut where it is long."""
    text = repr(value)
    return text if len(text) <= 60 else f"{text[:57]}..."
