"""Points from tables: columns of coordinates are known by their names, and numbers are read as they are written."""
from __future__ import annotations

import re
from decimal import Decimal
from typing import List, NamedTuple, Optional

from osgeo import gdal, ogr, osr

from .errors import InputError, UsageError
from .units import decimal_of

# Names of columns with x and y in a projection, and with degrees of WGS 84, in small letters and with "_" for " ",
# "-" and ".".
PROJECTED = (("x", "y"), ("xcoord", "ycoord"), ("x_coord", "y_coord"), ("coord_x", "coord_y"), ("point_x", "point_y"),
             ("x_coordinate", "y_coordinate"), ("easting", "northing"), ("eastings", "northings"), ("east", "north"),
             ("e", "n"), ("utm_e", "utm_n"), ("utm_x", "utm_y"), ("utm_easting", "utm_northing"),
             ("rechtswert", "hochwert"), ("rechts", "hoch"), ("rw", "hw"), ("ostwert", "nordwert"), ("ost", "nord"),
             ("est", "nord"), ("este", "norte"))
DEGREES = (("lon", "lat"), ("long", "lat"), ("lng", "lat"), ("longitude", "latitude"))
BLANKS = re.compile(r"[\s.-]+")
# A decimal comma; "1,500" may be a thousand and a half as well as one and a half.
COMMA = re.compile(r"[+-]?\d+,\d+")
THOUSANDS = re.compile(r"[+-]?\d{1,3},\d{3}")


class Columns(NamedTuple):
    """The columns of a table with x and y, as they are named, and whether they are degrees."""

    x: str
    y: str
    is_degrees: bool


def columns_of(layer: ogr.Layer, path: str) -> Columns:
    """The columns of coordinates of a layer without geometry.

    Raises:
        UsageError: there is no pair of columns, or more than one.
    """
    definition = layer.GetLayerDefn()
    names = [definition.GetFieldDefn(at).GetName() for at in range(definition.GetFieldCount())]
    plain = [BLANKS.sub("_", name.strip()).lower() for name in names]
    found = [Columns(names[plain.index(x)], names[plain.index(y)], (x, y) in DEGREES)
             for x, y in (*PROJECTED, *DEGREES) if x in plain and y in plain]
    if not found:
        raise UsageError(f"{path} has no columns of coordinates among {', '.join(names)}: name them x,y or "
                         "easting,northing; or lon,lat if they are degrees of WGS 84")
    if len(found) > 1 or any(plain.count(BLANKS.sub("_", name.strip()).lower()) > 1 for name in found[0][:2]):
        pairs = " and ".join(f"{pair.x},{pair.y}" for pair in found)
        raise UsageError(f"{path} has more than one pair of coordinates, {pairs}: keep one, and rename the others")
    return found[0]


def reference_of_table(path: str, columns: Columns) -> Optional[osr.SpatialReference]:
    """The projection that the file beside a table of text names, NAME.prj; None: there is none."""
    options = [f"X_POSSIBLE_NAMES={columns.x}", f"Y_POSSIBLE_NAMES={columns.y}"]
    dataset = gdal.OpenEx(path, gdal.OF_VECTOR, allowed_drivers=["CSV"], open_options=options)
    # A layer lives no longer than its dataset.
    return dataset.GetLayer(0).GetSpatialRef()


def number_of(feature: ogr.Feature, field: str, name: str) -> Decimal:
    """The number in a field of a feature.

    Raises:
        InputError: there is none, or one of which the comma may part thousands.
    """
    value = feature.GetField(field)
    if value is None or value == "":
        raise InputError(f"{name} has no value in its field {field}")
    if isinstance(value, str) and COMMA.fullmatch(value.strip()):
        if THOUSANDS.fullmatch(value.strip()):
            raise InputError(f"{name} has {value} in its field {field}: write the decimal mark as a point")
        value = value.replace(",", ".")
    try:
        return decimal_of(value)
    except UsageError:
        raise InputError(f"{name} has {value} in its field {field}, which is no number") from None


def degrees_of(feature: ogr.Feature, columns: Columns, name: str) -> List[Decimal]:
    """Longitude and latitude of a feature.

    Raises:
        InputError: one of them is no number, or past a full circle or a pole.
    """
    numbers = [number_of(feature, field, name) for field in columns[:2]]
    for field, number, most in zip(columns[:2], numbers, (360, 90)):
        if abs(number) > most:
            raise InputError(f"{name} has {number} in its field {field}, which is no number of degrees")
    return numbers
