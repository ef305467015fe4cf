"""Heights that a caller of Python gives, as an array, a masked array or a DataArray, and maps of the same kind."""
from __future__ import annotations

from dataclasses import dataclass, replace
from typing import Any, Iterable, List, Optional, Tuple

import numpy as np

from .arguments import cells_named, number_of, observers_named, shown, whole_number
from .errors import InputError
from .heights import Heights, check_shape, default_decimals, heights_of
from .labelled import Labels, is_labelled, labels_of, nodata_of
from .making import NODATA_CODE, NODATA_COUNT, Place
from .nodata import cells_of, free_value
from .units import MOST_DECIMALS


@dataclass(frozen=True)
class Given:
    """A grid of heights as it was given.

    Attributes:
        values: (rows, cols), row 0 in the north, of the byte order of this machine.
        dtype: the type that was given.
        heights: the same in units.
        fill_value: that of a masked array; None: it is none.
        labels: those of a DataArray, or None.
    """

    values: np.ndarray
    dtype: np.dtype
    heights: Heights
    fill_value: Optional[Any] = None
    labels: Optional[Labels] = None

    def places(self, cells: Iterable[Any], name: str) -> List[Place]:
        """The places of an argument, north up."""
        return [self._turned(place) for place in cells_named(cells, name)]

    def observers(self, observers: Iterable[Any]) -> List[Place]:
        """The places of observers with their eyes, north up."""
        return [self._turned(place) for place in observers_named(observers, self.heights.decimals)]

    def place(self, cell: Any, name: str) -> Place:
        """The place of an argument that is one cell, north up.

        Raises:
            InputError: it is no cell with data.
        """
        place = replace(self.places([cell], name)[0], name=name)
        rows, cols = self.values.shape
        if place.row >= rows or place.col >= cols:
            raise InputError(f"{name}={shown(cell)} lies outside the grid")
        if not self.heights.valid[place.row, place.col]:
            raise InputError(f"{name}={shown(cell)} lies where there is no data")
        return place

    def cell(self, row: int, col: int) -> Tuple[int, int]:
        """A cell of a map, north up, as a cell of what was given."""
        return (row, col) if self.labels is None else self.labels.cell(row, col)

    @property
    def is_whole(self) -> bool:
        """Whether heights are integers without decimals."""
        return self.dtype.kind in "iu" and self.heights.decimals == 0

    def _turned(self, place: Place) -> Place:
        rows, cols = self.values.shape
        if place.row >= rows or place.col >= cols:
            return place
        return Place(place.name, *self.cell(place.row, place.col), place.eye)

    def filled(self, units: np.ndarray) -> Any:
        """Filled heights as what was given: their own type if they are integers without decimals, else float64."""
        valid = self.heights.valid
        dtype = self.dtype if self.is_whole else np.dtype(np.float64)
        with np.errstate(over="ignore"):
            array = np.where(valid, self.heights.values(units, dtype), self.values.astype(dtype))
        # Of two types numpy makes one of this machine's byte order.
        array = array.astype(dtype, copy=False)
        missing = None if self.fill_value is None else free_value(array[valid], self.fill_value)
        return self._wrapped(array, "fill", missing)

    def counted(self, array: np.ndarray, name: str) -> Any:
        """A map of codes or counts as what was given."""
        return self._wrapped(array, name, NODATA_CODE if array.dtype == np.uint8 else NODATA_COUNT)

    def compared(self, array: np.ndarray, name: str) -> Any:
        """Classes, or differences with NaN where there is none, as what was given."""
        return self._wrapped(array, name, NODATA_CODE if array.dtype == np.uint8 else np.nan)

    def _wrapped(self, array: np.ndarray, name: str, missing: Any) -> Any:
        if self.labels is not None:
            return self.labels.wrapped(array, name, missing)
        if self.fill_value is not None:
            return np.ma.MaskedArray(array, mask=~self.heights.valid, fill_value=missing)
        return array


def given_of(heights: Any, nodata: Any, scale: Any) -> Given:
    """A grid of heights from what a caller gives.

    Args:
        heights: (rows, cols): an array or list of integers or floats, a masked array, or a DataArray.
        nodata: the value that means no data; None: there is none, or the one that a DataArray's attributes tell.
        scale: decimals that are kept; None: 0 of integers, 2 of floats.

    Raises:
        InputError: the heights, nodata or scale have no map.
    """
    labels = labels_of(heights) if is_labelled(heights) else None
    values, valid, dtype = _cells(heights, nodata, "nodata", labels)
    decimals = default_decimals(dtype) if scale is None else whole_number(scale, "scale", 0, MOST_DECIMALS)
    missing = heights.fill_value if isinstance(heights, np.ma.MaskedArray) else None
    return Given(values, dtype, heights_of(values, valid, decimals), missing, labels)


def other_map_of(array: Any, nodata: Any, shape: Tuple[int, ...]) -> Tuple[np.ndarray, np.ndarray]:
    """Another program's map, north up, and where it has data, from what a caller gives as `other` and `other_nodata`.

    Args:
        array: as heights are given.
        shape: that of the heights.

    Raises:
        InputError: it is no map of as many cells.
    """
    values, valid, dtype = _cells(array, nodata, "other_nodata", labels_of(array) if is_labelled(array) else None,
                                  "other")
    if values.shape != shape:
        raise InputError(f"other has the shape {values.shape}, and the heights have {shape}")
    return values, valid & ~np.isnan(values) if dtype.kind == "f" else valid


def _cells(array: Any, nodata: Any, name: str, labels: Optional[Labels],
           what: str = "heights") -> Tuple[np.ndarray, np.ndarray, np.dtype]:
    """The values of a grid, north up, where it has data by mask and NODATA, and the type that was given."""
    missing = [] if nodata is None else [number_of(nodata, name)]
    if labels is not None and nodata is None:
        missing = nodata_of(array)
    given = _array_of(array.values if labels is not None else array, what)
    values = given if labels is None else given[labels.turns]
    values = np.ascontiguousarray(values, given.dtype.newbyteorder("="))
    valid = ~np.ma.getmaskarray(array) if isinstance(array, np.ma.MaskedArray) else np.ones(values.shape, bool)
    for number in missing:
        valid &= ~cells_of(values, number)
    return values, valid, given.dtype


def _array_of(given: Any, what: str) -> np.ndarray:
    """The array of what is given, without mask.

    Args:
        what: it is, in messages.

    Raises:
        InputError: it is no grid of integers or floats.
    """
    try:
        array = np.asarray(np.ma.getdata(given))
    except (TypeError, ValueError) as error:
        raise InputError(f"{what} are no array: {error}") from None
    if array.ndim == 3:
        raise InputError(f"an array of shape {array.shape} is no grid: choose one, as {what}[0]")
    if array.dtype.kind not in "iuf":
        raise InputError(f"{what} of type {array.dtype} are neither integers nor floats")
    check_shape(array.shape)
    return array
