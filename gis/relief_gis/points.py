"""Points by coordinates, from words or vector layers, and the cells in which they lie."""
from __future__ import annotations

import shlex
from dataclasses import dataclass, replace
from decimal import Decimal
from fractions import Fraction
from typing import Callable, Iterator, List, Optional, Sequence, Tuple, Union

import numpy as np
from osgeo import gdal, ogr, osr

from .datums import change_between
from .errors import DeviceError, InputError, UsageError
from .frame import Frame, reference_of
from .gdal_errors import raised_errors
from .layers import write_layer
from .making import Place
from .tables import Columns, columns_of, degrees_of, number_of, reference_of_table
from .units import Reach, decimal_of, plain, whole_units

LAYER_MARK = "|layername="
WGS_84 = "EPSG:4326"

Coordinates = Tuple[Decimal, Decimal]


@dataclass(frozen=True)
class Point:
    """A point in the raster's projection.

    Attributes:
        name: its name in messages.
        x, y: its coordinates.
        eye, above, radius: of an observer, as in `Job`; None: those of the job.
        label: the name that the user gave it, or "".
    """

    name: str
    x: Decimal
    y: Decimal
    eye: Optional[Decimal] = None
    above: Optional[Decimal] = None
    radius: Optional[Reach] = None
    label: str = ""

    def __str__(self) -> str:
        return f"{self.name} ({plain(self.x)}, {plain(self.y)})"


@dataclass(frozen=True)
class Layer:
    """A vector layer of points: PATH or PATH|layername=NAME, and its fields of eyes, targets, radii and names."""

    path: str
    eye_field: Optional[str] = None
    above_field: Optional[str] = None
    radius_field: Optional[str] = None
    name_field: Optional[str] = None

    @property
    def file(self) -> str:
        """What GDAL opens."""
        return self.path.partition(LAYER_MARK)[0]


Source = Union[Point, Layer]


def point_of_word(word: str, name: str) -> Point:
    """The point that a word X,Y stands for, by its name in messages.

    Raises:
        UsageError: it is not two numbers joined by a comma.
    """
    parts = word.split(",")
    if len(parts) != 2:
        raise UsageError(f"{word} is not X,Y: two coordinates in the projection of the raster")
    return Point(name, decimal_of(parts[0], "x"), decimal_of(parts[1], "y"))


def points_of(sources: Sequence[Source], frame: Frame, notes: List[str],
              faults: List[str]) -> List[Point]:
    """The points of words and layers, in their order, in the projection of a raster.

    Args:
        notes: lines for the user are added here.
        faults: what is wrong with features that are left out is added here.

    Raises:
        UsageError: a layer or field is none.
        InputError: a layer cannot be projected.
        DeviceError: a layer could not be read.
    """
    points: List[Point] = []
    for source in sources:
        if isinstance(source, Point):
            points.append(source)
        else:
            points += _points_of_layer(source, frame, notes, faults)
    return points


def _points_of_layer(source: Layer, frame: Frame, notes: List[str], faults: List[str]) -> List[Point]:
    path, _, name = source.path.partition(LAYER_MARK)
    points: List[Point] = []
    try:
        with raised_errors():
            dataset = gdal.OpenEx(path, gdal.OF_VECTOR)
            layer = _layer_of(dataset, path, name)
            for field in (source.eye_field, source.above_field, source.radius_field, source.name_field):
                if field and layer.GetLayerDefn().GetFieldIndex(field) < 0:
                    raise UsageError(f"{path} has no field {field}")
            coordinates = _coordinates_of(dataset, layer, frame, path, notes)
            for feature in _features_of(layer):
                try:
                    points.append(_point_of_feature(feature, path, source, coordinates))
                except InputError as error:
                    faults.append(str(error))
    except RuntimeError as error:
        raise DeviceError(f"{path} could not be read: {error}") from error
    return points


def _layer_of(dataset: gdal.Dataset, path: str, name: str) -> ogr.Layer:
    count = dataset.GetLayerCount()
    if name:
        layer = dataset.GetLayerByName(name)
        if layer is None:
            raise UsageError(f"{path} has no layer {name}")
        return layer
    if count != 1:
        names = ", ".join(dataset.GetLayer(at).GetName() for at in range(count))
        choice = shlex.quote(f"{path}{LAYER_MARK}NAME")
        raise UsageError(f"{path} has {count} layers: choose one by {choice} of {names}")
    return dataset.GetLayer(0)


def _features_of(layer: ogr.Layer) -> Iterator[ogr.Feature]:
    layer.ResetReading()
    feature = layer.GetNextFeature()
    while feature is not None:
        yield feature
        feature = layer.GetNextFeature()


def _coordinates_of(dataset: gdal.Dataset, layer: ogr.Layer, frame: Frame, path: str,
                    notes: List[str]) -> Callable[[ogr.Feature, str], Coordinates]:
    """How a feature's coordinates in the raster's projection are found, by the feature and its name."""
    if layer.GetGeomType() != ogr.wkbNone:
        change = change_between(layer.GetSpatialRef(), frame, path, notes)
        return lambda feature, name: _changed(_geometry_of(feature, name), change, name)
    columns = columns_of(layer, path)
    reference = reference_of_table(path, columns) if dataset.GetDriver().ShortName == "CSV" else None
    if columns.is_degrees and reference is None:
        change = _change_from_degrees(columns, frame, path, notes)
        return lambda feature, name: _changed(degrees_of(feature, columns, name), change, name)
    change = change_between(reference, frame, path, notes)
    return lambda feature, name: _changed([number_of(feature, field, name) for field in columns[:2]], change, name)


def _change_from_degrees(columns: Columns, frame: Frame, path: str,
                         notes: List[str]) -> Optional[osr.CoordinateTransformation]:
    if frame.spatial_reference() is None:
        raise UsageError(f"{path} has degrees, {columns.x} and {columns.y}, and the raster has no projection: give "
                         "x,y in the coordinates of the raster")
    notes.append(f"{path} has {columns.x},{columns.y}: they are taken as degrees of WGS 84")
    return change_between(reference_of(WGS_84), frame, path, notes)


def _geometry_of(feature: ogr.Feature, name: str) -> Sequence[Decimal]:
    geometry = feature.GetGeometryRef()
    if geometry is not None and ogr.GT_Flatten(geometry.GetGeometryType()) == ogr.wkbMultiPoint \
            and geometry.GetGeometryCount() == 1:
        geometry = geometry.GetGeometryRef(0)
    if geometry is None or geometry.IsEmpty() or ogr.GT_Flatten(geometry.GetGeometryType()) != ogr.wkbPoint:
        raise InputError(f"{name} is no point")
    if not np.isfinite([geometry.GetX(), geometry.GetY()]).all():
        raise InputError(f"{name} has coordinates that are no numbers")
    return decimal_of(geometry.GetX()), decimal_of(geometry.GetY())


def _changed(numbers: Sequence[Decimal], change: Optional[osr.CoordinateTransformation], name: str) -> Coordinates:
    x, y = numbers
    if change is None:
        return x, y
    try:
        moved = change.TransformPoint(float(x), float(y))[:2]
    except RuntimeError:
        moved = (np.inf, np.inf)
    if not np.isfinite(moved).all():
        raise InputError(f"{name} ({plain(x)}, {plain(y)}) cannot be projected to the raster")
    return decimal_of(moved[0]), decimal_of(moved[1])


def _point_of_feature(feature: ogr.Feature, path: str, source: Layer,
                      coordinates: Callable[[ogr.Feature, str], Coordinates]) -> Point:
    name = f"feature {feature.GetFID()} of {path}"
    x, y = coordinates(feature, name)
    eye, above, radius = (number_of(feature, field, name) if field else None
                          for field in (source.eye_field, source.above_field, source.radius_field))
    label = feature.GetFieldAsString(source.name_field) if source.name_field else ""
    return Point(name, x, y, eye, above, radius, label)


def points_on_data(points: Sequence[Point], frame: Frame, has_data: Callable[[int, int], bool],
                   faults: List[str]) -> List[Point]:
    """The points that lie in cells with data; what is wrong with the others is added to the faults."""
    found = []
    for point in points:
        row, col = frame.cell_at(Fraction(point.x), Fraction(point.y))
        if not frame.has(row, col):
            faults.append(f"{point} lies outside the raster")
        elif not has_data(row, col):
            faults.append(f"{point} lies where there is no data, at row {row} and column {col}")
        else:
            found.append(point)
    return found


def places_of(points: Sequence[Point], frame: Frame, decimals: Optional[int] = None,
              eye: Optional[Decimal] = None) -> List[Place]:
    """The cells in which points lie, with eyes in units where decimals are given.

    Raises:
        UsageError: an observer has no eye, or one that is no whole number of units.
    """
    places = []
    for point in points:
        row, col = frame.cell_at(Fraction(point.x), Fraction(point.y))
        units = None
        if decimals is not None:
            height = point.eye if point.eye is not None else eye
            if height is None:
                raise UsageError(f"{point} has no eye: give --eye or --eye-field")
            units = whole_units(height, decimals, f"the eye of {point.name},")
        places.append(Place(str(point), row, col, units))
    return places


def snap(places: Sequence[Place], counts: np.ndarray, cells: int) -> List[Place]:
    """Moves each place to the cell of greatest accumulation within so many rows and columns of it.

    Of equals the nearest is taken, then the first in row order.

    Args:
        counts: (rows, cols) int, accumulations; below 0 where there is no data.
        cells: how far, at least 0.
    """
    moved = []
    for place in places:
        top, left = max(place.row - cells, 0), max(place.col - cells, 0)
        part = counts[top:place.row + cells + 1, left:place.col + cells + 1]
        rows, cols = np.nonzero(part == part.max())
        away = (rows + top - place.row) ** 2 + (cols + left - place.col) ** 2
        nearest = int(np.argmin(away))
        moved.append(replace(place, row=int(rows[nearest]) + top, col=int(cols[nearest]) + left))
    return moved


def write_points(path: str, places: Sequence[Place], counts: Sequence[int], frame: Frame) -> None:
    """Writes places as a GeoPackage of points with their number, name, row, column and accumulation, of `counts`.

    Raises:
        DeviceError, OSError: the file could not be written.
    """
    fields = (("number", int), ("name", str), ("row", int), ("col", int), ("accumulation", int))
    features = ((_centre(frame, place), (number, place.name, place.row, place.col, count))
                for number, (place, count) in enumerate(zip(places, counts), 1))
    write_layer(path, "gauges", ogr.wkbPoint, fields, features, frame)


def _centre(frame: Frame, place: Place) -> ogr.Geometry:
    point = ogr.Geometry(ogr.wkbPoint)
    point.AddPoint_2D(*frame.centre(place.row, place.col))
    return point
