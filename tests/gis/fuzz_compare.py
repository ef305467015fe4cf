"""Compares what relief-gis wrote, as a raster, as a layer and as lines, with what the judge says."""
import re
from fractions import Fraction

import numpy
from osgeo import gdal, ogr, osr

import judge_scene

COUNTS = ("accumulate", "basins", "catchments", "view")
TYPES = {"flow": ("Byte", 255), "streams": ("Byte", 255), "area": ("Float64", -9999),
         **dict.fromkeys(COUNTS, ("Int32", -9999))}
GAUGE = re.compile(r"relief-gis: (\d+), .*: ([\d,]+) cells? drains? to it first"
                   r"(?:, ([\d,]+) of them where the data ends)?$")
UNCERTAIN = re.compile(r"relief-gis: ([\d,]+) cells? lies? where the data ends or downstream of it")
ROUNDED = re.compile(r"rounded.* by at most ([-+.e\d]+)")


def difference(case, scene, maps, lines):
    """How what was written differs from each of some maps; none where it is one of them."""
    dataset = gdal.Open(str(case.output))
    if dataset is None or dataset.RasterCount != 1:
        return "no raster of one band"
    if (dataset.RasterXSize, dataset.RasterYSize) != (scene.cols, scene.rows):
        return f"size {dataset.RasterXSize}, {dataset.RasterYSize} for {scene.cols}, {scene.rows}"
    band = dataset.GetRasterBand(1)
    kind = gdal.GetDataTypeName(band.DataType), band.GetNoDataValue()
    if kind != TYPES.get(case.map, kind):
        return f"type and NODATA {kind}"
    own = (scene.raw.dtype, "int16" if scene.raw.dtype == "int8" else "")
    if case.map == "fill" and scene.is_whole and not scene.is_scaled and scene.decimals == 0 \
            and judge_scene.values_of(band).dtype not in own:
        return f"type {kind} for heights of {scene.raw.dtype}"
    return place_fault(dataset, scene) or value_fault(case, band, scene, maps, lines) or rounding_fault(scene, lines) \
        or uncertain_fault(case, scene, lines)


def place_fault(dataset, scene):
    """What is wrong with the place or the projection of a raster."""
    place = dataset.GetGeoTransform()
    side, slack = float(scene.side), float(scene.side) * 1e-6
    if (place[2], place[4]) != (0, 0) or abs(place[1] - side) > side * 1e-8 or abs(place[5] + side) > side * 1e-8 \
            or abs(place[0] - float(scene.west)) > slack or abs(place[3] - float(scene.north)) > slack:
        return f"place {place}"
    text = dataset.GetProjection()
    is_same = (text == "") == (scene.projection is None) and (text == "" or osr.SpatialReference(text).IsSame(
        scene.projection, ["IGNORE_DATA_AXIS_TO_SRS_AXIS_MAPPING=YES"]))
    return "" if is_same else f"projection {text[:60]}"


def value_fault(case, band, scene, maps, lines):
    """Where the values differ from each of the maps, or the lines from that which was written."""
    values, nodata = judge_scene.values_of(band), band.GetNoDataValue()
    is_empty = numpy.isnan(values) if nodata != nodata else values == nodata
    written = {(row, col): values[row, col] for row, col in numpy.ndindex(values.shape) if not is_empty[row, col]}
    # Where nobody sees a target, however high, there is no height of it.
    cells = maps[0].keys() if case.map == "rise" else scene.land.keys()
    if written.keys() != cells:
        return f"data at {sorted(written.keys() ^ cells)[:5]}"
    reason = ""
    for index, expected in enumerate(maps):
        differences = [(cell, float(expected[cell]), written[cell]) for cell in sorted(expected)
                       if not is_value(written[cell], expected[cell], scene.decimals)]
        if differences:
            reason = f"{len(differences)} of {len(written)} values, as {differences[0]}"
        else:
            reason = gauges_fault(case, scene, expected, scene.moved[index], lines) if case.map == "catchments" else ""
        if not reason:
            return ""
    return reason


def is_value(written, exact, decimals):
    """Whether a written number is the nearest of its type to an exact one, and gives it again when rounded."""
    if written.dtype.kind != "f":
        return int(written) == exact
    units = exact * 10 ** decimals
    return written == written.dtype.type(float(exact)) \
        and (units.denominator != 1 or round(Fraction(float(written)) * 10 ** decimals) == units)


def gauges_fault(case, scene, numbers, gauges, lines):
    """What is wrong with the counts of gauges that the lines tell, and with the layer of moved gauges."""
    told = {}
    for line in lines.splitlines():
        found = GAUGE.match(line)
        if found:
            told[int(found[1])] = tuple(int((text or "0").replace(",", "")) for text in found.groups()[1:])
    for number, gauge in enumerate(gauges, 1):
        cells = [cell for cell in numbers if numbers[cell] == number]
        rim = [cell for cell in cells if cell != gauge and is_rim(scene.land, cell)]
        if cells and told.get(number) != (len(cells), len(rim)):
            return f"gauge {number} is told {told.get(number)} for {len(cells)} and {len(rim)}"
    if "--snapped" not in case.options:
        return ""
    source = ogr.Open(case.options[case.options.index("--snapped") + 1])
    points = [feature.GetGeometryRef().GetPoint_2D() for feature in source.GetLayer(0)] if source else []
    cells = [scene.cell(Fraction(x), Fraction(y)) for x, y in points]
    return "" if cells == gauges else f"moved gauges at {cells} for {gauges}"


def is_rim(land, cell):
    """Whether the data ends beside a cell."""
    return any((cell[0] + down, cell[1] + right) not in land for down in (-1, 0, 1) for right in (-1, 0, 1))


def uncertain_fault(case, scene, lines):
    """What is wrong with the cells below the data's edge, as a raster and as the line that counts them."""
    told = UNCERTAIN.search(lines)
    if told and int(told[1].replace(",", "")) != sum(scene.uncertain.values()):
        return f"{told[1]} cells below the edge are told for {sum(scene.uncertain.values())}"
    is_cut = (scene.cols, scene.rows) != (scene.dataset.RasterXSize, scene.dataset.RasterYSize)
    if is_cut and not told and case.map in ("accumulate", "area", "streams", "basins"):
        return "no line tells the cells below the edge"
    if "--uncertain" not in case.options:
        return ""
    dataset = gdal.Open(case.options[case.options.index("--uncertain") + 1])
    band = dataset.GetRasterBand(1)
    if gdal.GetDataTypeName(band.DataType) != "Byte" or band.GetNoDataValue() != 255:
        return "the cells below the edge are no bytes with NODATA 255"
    values = {(row, col): int(value) for (row, col), value in numpy.ndenumerate(band.ReadAsArray()) if value != 255}
    return place_fault(dataset, scene) or ("" if values == scene.uncertain else "the cells below the edge")


def rounding_fault(scene, lines):
    """What is wrong with the line that tells the greatest rounding.

    It need not tell of floats that are the nearest to their decimals, as 0.1.
    """
    told = ROUNDED.search(lines)
    least, most = scene.roundings[False], max(scene.roundings.values())
    if told is None:
        return f"no line tells the rounding by {float(least)}" if least else ""
    if not least - Fraction(1, 10 ** 12) <= Fraction(told[1]) <= most * Fraction(11, 10) + Fraction(1, 10 ** 9):
        return f"rounding by {float(least)} to {float(most)} is told as {told[1]}"
    return "" if most else "told a rounding where nothing was rounded"
