"""Which cells the points of a command are, by a plain reading of docs/gis.md.

It shares no line with `relief_gis`. A point is its cell, None where it has none that is read, and the texts of some of
its fields, None where they have none.
"""
import csv
import pathlib
import re
from fractions import Fraction

from osgeo import ogr, osr

from judge_scene import Refused, Unknown, number

PAIRS = ("x,y", "xcoord,ycoord", "x_coord,y_coord", "coord_x,coord_y", "x_coordinate,y_coordinate", "point_x,point_y",
         "easting,northing", "eastings,northings", "east,north", "e,n", "utm_e,utm_n", "utm_x,utm_y",
         "utm_easting,utm_northing", "rechtswert,hochwert", "rechts,hoch", "rw,hw", "ostwert,nordwert", "ost,nord",
         "est,nord", "este,norte")
DEGREES = ("lon,lat", "long,lat", "lng,lat", "longitude,latitude")


def at_points(scene, texts):
    """Points given as X,Y."""
    points = []
    for text in texts:
        parts = text.split(",")
        if len(parts) != 2:
            raise Refused("not two numbers")
        points.append((scene.cell(number(parts[0]), number(parts[1])), []))
    return points


def layer_points(scene, words, fields=()):
    """The points of layers, with the texts of some fields of theirs; a field that is None has none."""
    return [point for word in words for point in
            (table_points if word.endswith(".csv") else package_points)(scene, word, fields)]


def table_points(scene, path, fields):
    """The points of a table."""
    lines = pathlib.Path(path).read_text().splitlines()
    rows = list(csv.reader(lines, delimiter=";" if ";" in lines[0] else ","))
    names = [re.sub("[- ]", "_", name.lower()) for name in rows[0]]
    pairs = [pair for pair in (*PAIRS, *DEGREES) if set(pair.split(",")) <= set(names)]
    if len(pairs) != 1:
        raise Refused("no pair of columns, or two")
    if any(field and field not in rows[0] for field in fields):
        raise Refused("no such field")
    first, second = map(names.index, pairs[0].split(","))
    system = None
    if pairs[0] in DEGREES:
        system = osr.SpatialReference()
        system.ImportFromEPSG(4326)
    return [(table_cell(scene, system, row[first], row[second]),
             [row[rows[0].index(field)] if field else None for field in fields]) for row in rows[1:]]


def table_cell(scene, system, x, y):
    """The cell of a row of a table; None without one."""
    if not x or not y:
        return None
    x, y = (text.replace(",", ".") for text in (x, y))
    if system is not None:
        if scene.projection is None:
            raise Refused("degrees for a raster without projection")
        return layer_cell(scene, system, float(x), float(y))
    return plain_cell(scene, x, y)


def plain_cell(scene, x, y):
    """The cell of a point of decimal texts, where these and their nearest doubles agree."""
    cell = scene.cell(Fraction(x), Fraction(y))
    if cell != scene.cell(Fraction(float(x)), Fraction(float(y))):
        raise Unknown("a point of a layer near a border")
    return cell


def package_points(scene, word, fields):
    """The points of a layer that OGR opens."""
    path, _, name = word.partition("|layername=")
    source = ogr.Open(path)
    layer = source.GetLayerByName(name) if name else source.GetLayer(0)
    if any(field and layer.GetLayerDefn().GetFieldIndex(field) < 0 for field in fields):
        raise Refused("no such field")
    points = []
    for feature in layer:
        x, y = feature.GetGeometryRef().GetPoint_2D()
        values = [feature.GetField(field) if field else None for field in fields]
        points.append((layer_cell(scene, layer.GetSpatialRef(), x, y),
                       [None if value is None else repr(float(value)) for value in values]))
    return points


def layer_cell(scene, system, x, y):
    """The cell of a point in some projection."""
    if system is None or scene.projection is None or system.IsSame(scene.projection):
        return plain_cell(scene, repr(x), repr(y))
    system = system.Clone()
    system.SetAxisMappingStrategy(osr.OAMS_TRADITIONAL_GIS_ORDER)
    x, y = osr.CoordinateTransformation(system, scene.projection).TransformPoint(x, y)[:2]
    slack = scene.side / 1000
    cells = {scene.cell(Fraction(x) + right, Fraction(y) + up) for right in (-slack, slack) for up in (-slack, slack)}
    if len(cells) > 1:
        raise Unknown("a point of a layer near a border")
    return cells.pop()
