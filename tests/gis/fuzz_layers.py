"""Writes layers of points for the fuzz."""
from osgeo import ogr, osr


def system_of(code):
    """A projection or degrees, with the east first."""
    system = osr.SpatialReference()
    system.ImportFromEPSG(code)
    system.SetAxisMappingStrategy(osr.OAMS_TRADITIONAL_GIS_ORDER)
    return system


def moved(source, target, points):
    """Points in another projection."""
    if source == target:
        return points
    ways = osr.CoordinateTransformation(system_of(source), system_of(target))
    return [ways.TransformPoint(x, y)[:2] for x, y in points]


def write_package(path, code, source, points, values):
    """Writes a GeoPackage in one projection of points in another one, with lists of values by the names of fields."""
    package = ogr.GetDriverByName("GPKG").CreateDataSource(str(path))
    layer = package.CreateLayer("places", system_of(code), ogr.wkbPoint)
    for name in values:
        layer.CreateField(ogr.FieldDefn(name, ogr.OFTReal))
    for index, (x, y) in enumerate(moved(source, code, points)):
        feature = ogr.Feature(layer.GetLayerDefn())
        feature.SetGeometry(ogr.CreateGeometryFromWkt(f"POINT ({x!r} {y!r})"))
        for name, column in values.items():
            feature.SetField(name, column[index])
        layer.CreateFeature(feature)


def write_table(path, pair, points, values, separator):
    """Writes a table of points with their values; after semicolons decimals have a comma where they are not three."""
    lines = [separator.join([*pair.split(","), *values])]
    for index, point in enumerate(points):
        texts = [repr(value) if value != "" else "" for value in point]
        if separator == ";":
            texts = [text if len(text.partition(".")[2]) == 3 else text.replace(".", ",") for text in texts]
        lines.append(separator.join([*texts, *(str(column[index]) for column in values.values())]))
    path.write_text("\n".join([*lines, ""]))
