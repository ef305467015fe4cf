"""Heights as a DataArray of xarray: which way its rows run, what its attributes say, and maps as DataArrays again.

xarray is never imported: what has dims and coordinates is a DataArray.
"""
from __future__ import annotations

from dataclasses import dataclass
from typing import Any, Dict, Iterable, List, Mapping, Optional, Tuple, Union

import numpy as np

from .arguments import number_of, shown
from .errors import InputError

# How much a cell may differ from a square, and a coordinate from its place, in cells.
TOLERANCE = 0.01
X_NAMES = ("x", "lon", "longitude", "easting", "projection_x_coordinate")
Y_NAMES = ("y", "lat", "latitude", "northing", "projection_y_coordinate")
DEGREES = ("lon", "longitude", "lat", "latitude")
ANGLES = ("degree", "rad", "arc")
# The attributes by which values mean that there is no data, as CF, rioxarray and older xarray name them.
NODATA_NAMES = ("_FillValue", "missing_value", "nodata", "nodatavals")
# What holds of each map of the same cells, whatever its values are.
PLACE_NAMES = ("grid_mapping", "coordinates", "crs", "transform", "res", "AREA_OR_POINT")
# What tells of the values as they were.
STATISTICS = ("STATISTICS_", "actual_range")


@dataclass(frozen=True)
class Labels:
    """A DataArray of heights.

    Attributes:
        given: the DataArray.
        turns: the slices by which rows run from north to south and columns from west to east, and back again.
    """

    given: Any
    turns: Tuple[slice, slice]

    def wrapped(self, array: np.ndarray, name: str, missing: float) -> Any:
        """A map, north up, as a DataArray of the same cells; the attributes of heights hold for filled heights alone.

        Args:
            array: (rows, cols).
            name: the name of the map.
            missing: what the map has where there is no data.
        """
        result = self.given.copy(data=np.ascontiguousarray(array[self.turns]))
        if name == "fill":
            result.attrs = {key: value for key, value in result.attrs.items() if not str(key).startswith(STATISTICS)}
            return result
        result.name = name
        result.attrs = {**_of_place(result.attrs), "_FillValue": array.dtype.type(missing)}
        result.encoding = _of_place(getattr(self.given, "encoding", {}))
        return result

    def cell(self, row: int, col: int) -> Tuple[int, int]:
        """A cell of the DataArray, north up."""
        rows, cols = self.given.shape
        down, across = self.turns
        return rows - 1 - row if down.step == -1 else row, cols - 1 - col if across.step == -1 else col


def is_labelled(heights: Any) -> bool:
    """Whether heights are a DataArray.

    Raises:
        InputError: they are a Dataset, of several variables.
    """
    if hasattr(heights, "data_vars"):
        raise InputError("heights are a Dataset of several variables: choose one, as heights[\"NAME\"]")
    return hasattr(heights, "dims") and hasattr(heights, "coords")


def labels_of(heights: Any) -> Labels:
    """Which way the rows and columns of a DataArray run.

    Raises:
        InputError: it has not two dimensions, or its cells are not square, not even, in degrees, or rows are columns.
    """
    dims = heights.dims
    if len(dims) != 2:
        raise InputError(f"heights have the dimensions {', '.join(map(str, dims))}: choose one grid of two, as by "
                         "isel(band=0)")
    coordinates = [heights.coords[dim] if dim in heights.coords else None for dim in dims]
    if _is_axis("X", dims[0], coordinates[0]) or _is_axis("Y", dims[1], coordinates[1]):
        raise InputError(f"heights have the dimensions {dims[0]}, {dims[1]}: rows come first, so "
                         f"heights.transpose(\"{dims[1]}\", \"{dims[0]}\")")
    if _is_scaled(heights.attrs):
        raise InputError("heights have a scale_factor or add_offset among their attributes, and are numbers of a "
                         "file: open it with mask_and_scale=True")
    _refuse_degrees(heights, coordinates)
    down, across = (None if it is None else _step(dim, it) for dim, it in zip(dims, coordinates))
    if down and across and abs(abs(down) - abs(across)) > TOLERANCE * min(abs(down), abs(across)):
        raise InputError(f"cells of {abs(across):g} by {abs(down):g} are not square: resample the heights first")
    # Coordinates of rows rise from the south.
    return Labels(heights, (_turn(down is not None and down > 0), _turn(across is not None and across < 0)))


def nodata_of(heights: Any) -> List[Union[int, float]]:
    """The values that mean no data by a DataArray's attributes or encoding."""
    encoding = getattr(heights, "encoding", {})
    # Numbers of the file are no heights where these are scaled.
    told = [heights.attrs] if _is_scaled(encoding) else [heights.attrs, encoding]
    return [number_of(value, f"the attribute {name}", ": give nodata=") for words in told for name in NODATA_NAMES
            for value in _all_of(words.get(name)) if value is not None]


def _all_of(value: Any) -> Iterable[Any]:
    return value if isinstance(value, (tuple, list)) else np.ravel(value)


def _is_scaled(words: Mapping[str, Any]) -> bool:
    """Whether values are numbers of a file, by what CF and rioxarray, or older xarray say."""
    return any(bool(np.any(np.asarray(words.get(name, plain)) != plain)) for name, plain in
               (("scale_factor", 1), ("add_offset", 0), ("scales", 1), ("offsets", 0)))


def _of_place(words: Mapping[Any, Any]) -> Dict[Any, Any]:
    return {name: value for name, value in words.items() if name in PLACE_NAMES}


def _turn(is_turned: bool) -> slice:
    return slice(None, None, -1 if is_turned else 1)


def _is_axis(axis: str, dim: Any, coordinate: Any) -> bool:
    """Whether a dimension is the axis X or Y by its name or its coordinate's attributes."""
    names = X_NAMES if axis == "X" else Y_NAMES
    attributes = {} if coordinate is None else coordinate.attrs
    return str(dim).lower() in names or attributes.get("axis") == axis or attributes.get("standard_name") in names


def _refuse_degrees(heights: Any, coordinates: Iterable[Any]) -> None:
    """Refuses coordinates that are angles, by their names, units or projection."""
    cure = "project the heights first, as by heights.rio.reproject"
    for dim, coordinate in zip(heights.dims, coordinates):
        units = "" if coordinate is None else str(coordinate.attrs.get("units", ""))
        if str(dim).lower() in DEGREES or units.lower().startswith(ANGLES):
            raise InputError(f"the coordinate {dim} is in degrees, and cells of degrees are not square on the ground: "
                             f"{cure}")
    mapping = heights.attrs.get("grid_mapping", getattr(heights, "encoding", {}).get("grid_mapping", "spatial_ref"))
    attributes = heights.coords[mapping].attrs if mapping in heights.coords else {}
    words = str(attributes.get("crs_wkt", attributes.get("spatial_ref", "")))
    if words.startswith(("GEOG", "GEOD")) or attributes.get("grid_mapping_name") == "latitude_longitude":
        raise InputError(f"the projection is in degrees, and cells of degrees are not square on the ground: {cure}")


def _step(dim: Any, coordinate: Any) -> Optional[float]:
    """The distance of neighbouring cells along a dimension; None: it has one cell alone."""
    places = np.asarray(coordinate.values)
    if places.ndim != 1 or places.dtype.kind not in "iuf" or not np.isfinite(places).all():
        raise InputError(f"the coordinate {dim} is no list of lengths: {shown(places)}")
    if places.size < 2:
        return None
    numbers = places.astype(np.float64)
    step = float(numbers[-1] - numbers[0]) / (numbers.size - 1)
    rounding = float(np.spacing(np.abs(places).max())) if places.dtype.kind == "f" else 0.0
    most = TOLERANCE * abs(step) + rounding
    if np.abs(numbers - numbers[0] - step * np.arange(numbers.size)).max() > most or most >= abs(step) / 2:
        raise InputError(f"the coordinate {dim} is not evenly spaced: resample the heights first")
    return step
