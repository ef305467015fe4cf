"""Values that mean that there is no data: which cells of an array have them, and which value is left for them."""
from __future__ import annotations

from typing import Any, Union

import numpy as np


def cells_of(values: np.ndarray, number: Union[int, float]) -> np.ndarray:
    """The cells that have a number, rounded to the type of floats: bool, of NaN none.

    Args:
        values: integers or floats.
        number: any number, also one that the type cannot have.
    """
    if values.dtype.kind == "f":
        # Past the greatest float of the type lies infinity, as in the array itself.
        with np.errstate(over="ignore"):
            return values == np.longdouble(number).astype(values.dtype)
    limits = np.iinfo(values.dtype)
    # The greatest integers of 64 bits come as floats, which lie past them.
    if isinstance(number, float) and number == float(limits.max):
        number = limits.max
    # NaN lies nowhere.
    if not limits.min <= number <= limits.max or number != int(number):
        return np.zeros(values.shape, bool)
    return values == values.dtype.type(int(number))


def free_value(data: np.ndarray, wanted: Any) -> Any:
    """A value that no datum has: the wanted one, else an end of the type; the wanted one where there is none.

    Args:
        data: integers or floats.
    """
    limits: Any = np.iinfo(data.dtype) if data.dtype.kind in "iu" else np.finfo(data.dtype)
    return next((it for it in (wanted, limits.min, limits.max) if not np.any(cells_of(data, it))), wanted)
