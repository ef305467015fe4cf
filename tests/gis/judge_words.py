"""What relief-gis has to write for the words of a command, by a plain reading of docs/gis.md and docs/rules.md.

It shares no line with `relief_gis`.
"""
import collections
import itertools
import math
import pathlib
from fractions import Fraction

from osgeo import gdal

import judge
from judge_points import at_points, layer_points
from judge_scene import Refused, Scene, Unknown, number, whole

GIVEN_AGAIN = ("at", "points", "sink-at", "sinks", "eye", "target", "radius")
VALUED = ("band", "decimals", "voids", "window", "bounds", "projection", "workers", "tile", "at", "points", "eye",
          "eye-field", "target", "radius", "threshold", "snap", "snapped", "sink-at", "sinks", "uncertain",
          "target-field", "radius-field", "refraction", "least")
OWN = {"streams": ("threshold",), "catchments": ("snap", "snapped", "sink-at", "sinks"), "basins": ("least",),
       "view": ("eye", "eye-field", "target", "radius", "target-field", "radius-field", "curvature", "refraction"),
       "rise": ("eye", "eye-field", "radius", "radius-field", "curvature", "refraction")}
NOT_BELOW = ("fill", "depth", "view", "rise")


def options_of(words):
    """The options of a command line: a list of texts for each that is given."""
    options, queue = {}, list(words)
    while queue:
        name, _, text = queue.pop(0)[2:].partition("=")
        if name in VALUED and not text:
            text = queue.pop(0)
        options.setdefault(name, []).append(text)
    return options


def subjects(scene, options, at="at", layer="points"):
    """The cells of the points of a command, those of coordinates first."""
    cells = [cell for cell, _ in at_points(scene, options.get(at, [])) + layer_points(scene, options.get(layer, []))]
    if all(cell in scene.land for cell in cells):
        return cells
    if "skip" in options:
        if "snap" in options:
            raise Unknown("gauges to be left out or moved")
        cells = [cell for cell in cells if cell in scene.land]
        if at == "at" and not cells:
            scene.doubts.append("all points are left out")
    elif "snap" not in options or at != "at" or None in cells:
        raise Refused("a point outside, or without data")
    return cells


def observers(scene, options):
    """The observers: cell, eye, target height and radius of each."""
    given = at_points(scene, options.get("at", []))
    fields = [options.get(f"{name}-field", [None])[-1] for name in ("eye", "target", "radius")]
    found = layer_points(scene, options.get("points", []), fields)
    columns = [column(scene, options, given, found, index, *which)
               for index, which in enumerate((("eye", None), ("target", "0"), ("radius", None)))]
    if not all(columns[0][:len(given)]):
        raise Refused("a point of --at without an eye")
    entries = list(zip([cell for cell, _ in given + found], *columns))
    # A feature lacks what its field does not tell.
    is_whole = [True] * len(given) + [all(text for field, text in zip(fields, texts) if field) for _, texts in found]
    if "skip" in options:
        entries = [entry for entry, whole in zip(entries, is_whole) if entry[0] in scene.land and entry[1] and whole]
        is_whole = [True] * len(entries)
        if not entries:
            scene.doubts.append("all points are left out")
    if any(cell not in scene.land for cell, *_ in entries):
        raise Refused("a point outside, or without data")
    if not all(is_whole) or not all(entry[1] for entry in entries):
        raise Refused("a point without an eye")
    return [(cell, scene.height_in_units(eye), scene.height_in_units(target), cells_of_radius(scene, radius))
            for cell, eye, target, radius in entries]


def column(scene, options, given, found, index, name, default):
    """What each observer has of eyes, targets or radii."""
    texts, field = options.get(name, [default]), options.get(f"{name}-field")
    if field and not found:
        raise Refused("a field without a layer")
    if len(texts) > 1 and (found or len(texts) != len(given)):
        raise Refused(f"{name} is given too often")
    texts = texts * len(given + found) if len(texts) == 1 else texts
    if not field:
        return texts
    if name in options and not given:
        scene.doubts.append("a number and a field of it")
    return texts[:len(given)] + [values[index] for _, values in found]


def view_of(scene, options):
    """How many observers see each cell, with the earth's curvature where it counts."""
    counts = dict.fromkeys(scene.land, 0)
    for land, found, _ in lands_of(scene, options, 6):
        for place, seen in judge.view(land, found).items():
            counts[place] += seen
    return counts


def rise_of(scene, options):
    """The least height of a target that an observer sees, with the earth's curvature where it counts."""
    heights = {}
    for land, found, factor in lands_of(scene, options, 2):
        for place, units in judge.rise(land, [(cell, eye, radius) for cell, eye, _, radius in found]).items():
            units = -(-units // factor)
            heights[place] = min(units, heights.get(place, units))
    return {place: Fraction(units, 10 ** scene.decimals) for place, units in heights.items()}


def lands_of(scene, options, decimals):
    """The land as it lies for observers, and these: all, or each by itself where the earth's curvature counts.

    Then both are in finer units, of at most so many decimals; how many of them make one is the third.
    """
    found = observers(scene, options)
    if "curvature" not in options:
        if "refraction" in options:
            raise Refused("refraction of no curvature")
        return [(scene.land, found, 1)]
    refraction = number(options.get("refraction", ["0.13"])[-1])
    if not 0 <= refraction <= 1:
        raise Refused("no share")
    drop = (1 - refraction) * scene.square_of_cell() / (2 * scene.height_unit()) * 10 ** scene.decimals
    return [curved(scene, drop, observer, judge.finer_units(scene.decimals, max(observer[1:3]), decimals))
            for observer in found]


def curved(scene, drop, observer, factor):
    """A land as it lies for one observer, and this one, in finer units; how many of them make one."""
    cell, eye, above, radius = observer
    if max(map(abs, scene.land.values())) * factor > 10 ** 14:
        raise Unknown("heights past what the finer units may have")
    return {place: height * factor - nearest(drop * factor * ((place[0] - cell[0]) ** 2 + (place[1] - cell[1]) ** 2))
            for place, height in scene.land.items()}, [(cell, eye * factor, above * factor, radius)], factor


def nearest(units):
    """The nearest whole number, where floats do not hide it."""
    if abs(units - math.floor(units) - Fraction(1, 2)) < Fraction(1, 10 ** 6):
        raise Unknown("a drop of half a unit")
    return round(units)


def length(scene, text):
    """A length in the unit of the projection."""
    for unit, metres in (("km", 1000), ("m", 1)):
        if text.endswith(unit):
            return number(text[:-len(unit)]) * metres / scene.metre()
    return number(text)


def cells_of_area(scene, text):
    """A threshold in cells: more than an area is more than so many cells."""
    for unit, square in (("km2", 10 ** 6), ("m2", 1), ("ha", 10 ** 4)):
        if text.endswith(unit):
            area = number(text[:-len(unit)])
            if area < 0:
                raise Refused("an area below 0")
            return math.floor(area * square / (scene.side * scene.metre()) ** 2)
    return whole(text, 0)


def cells_of_radius(scene, text):
    """A radius in whole cells; None without one."""
    if text is None:
        return None
    cells = math.floor(length(scene, text) / scene.side)
    if cells < 1:
        raise Refused("a radius of no cell")
    if cells > judge.FARTHEST:
        scene.doubts.append("a radius of very many cells")
    return cells


def snapped(scene, drainage, gauges, reach):
    """The lists of cells to which gauges may move: the nearest of those with the greatest accumulation around.

    Which of the nearest is taken the pages do not tell.
    """
    counts = drainage.accumulation()
    choices = []
    for row, col in gauges:
        around = [cell for cell in counts if abs(cell[0] - row) <= reach and abs(cell[1] - col) <= reach]
        if not around:
            raise Refused("no data around a gauge")
        if (row, col) not in scene.land:
            scene.doubts.append("a gauge without data that may move to some")
        best = [cell for cell in around if counts[cell] == max(counts[near] for near in around)]
        distances = [(cell[0] - row) ** 2 + (cell[1] - col) ** 2 for cell in best]
        choices.append([cell for cell, distance in zip(best, distances) if distance == min(distances)])
    if math.prod(map(len, choices)) > 32:
        raise Unknown("many ways to move the gauges")
    return [list(moved) for moved in itertools.product(*choices)]


def refuse_words(name, options):
    """Refuses options that a map does not have, and words that are no numbers."""
    own = OWN.get(name, ())
    if any(option in options and option not in own for others in OWN.values() for option in others):
        raise Refused("an option of another map")
    for option, texts in options.items():
        if option not in GIVEN_AGAIN and len(texts) > 1:
            raise Unknown("an option that is given again")
    if "uncertain" in options and name in NOT_BELOW:
        raise Refused("an option of other maps")
    if "projection" in options and "no-projection" in options:
        raise Refused("a projection and none")
    if not 1 <= whole(options.get("workers", ["1"])[-1], 1) <= 64 \
            or not 1 <= whole(options.get("tile", ["256"])[-1], 1) <= 4096:
        raise Refused("too many workers, or too large a tile")
    if "snapped" in options and "snap" not in options:
        raise Refused("where gauges were moved to, that were not moved")
    if name in ("catchments", "view", "rise") and "at" not in options and "points" not in options:
        raise Refused("no point")


def refuse_outputs(output, source, options):
    """Refuses outputs that are no GeoTIFF by name, write-protected, of another kind or read."""
    if output.suffix not in (".tif", ".tiff"):
        raise Refused("no name of a GeoTIFF")
    if output.exists() and (not output.stat().st_mode & 0o200 or gdal.Open(str(output)) is None):
        raise Refused("a write-protected file, or one of another kind")
    if output in files_of(pathlib.Path(source)):
        raise Refused("a file of the raster")
    layers = {word.partition("|")[0] for name in ("points", "sinks") for word in options.get(name, ())}
    if layers.intersection(options.get("snapped", ())):
        raise Refused("a layer that is read")


def files_of(source):
    """The files of a raster, and those of the rasters in them."""
    dataset = gdal.Open(str(source))
    files = {pathlib.Path(name) for name in dataset.GetFileList() or ()} if dataset else set()
    return files.union(*(files_of(name) for name in files if name != source and name.suffix in (".vrt", ".tif")))


def verdict(words):
    """What is read, and the maps of which one has to be written: dicts from cell to exact value.

    `moved` of the scene has the gauges of each of the maps.
    """
    name, source, output, *rest = words
    options = options_of(rest)
    refuse_words(name, options)
    refuse_outputs(pathlib.Path(output), source, options)
    if name == "streams" and "threshold" not in options:
        raise Refused("no threshold")
    scene = Scene(source, options)
    if name in ("view", "rise"):
        return scene, [(view_of if name == "view" else rise_of)(scene, options)]
    if name == "catchments":
        return scene, catchments(scene, options)
    drainage = judge.Drainage(scene.land, subjects(scene, options))
    scene.uncertain = drainage.below_rim()
    return scene, [map_of(name, drainage, scene, options)]


def catchments(scene, options):
    """The catchments of each list of cells at which the gauges may stand."""
    sinks = {key: options[key] for key in ("sink-at", "sinks", "skip") if key in options}
    drainage = judge.Drainage(scene.land, subjects(scene, sinks, "sink-at", "sinks"))
    scene.uncertain = drainage.below_rim()
    gauges = subjects(scene, options)
    scene.moved = [gauges]
    if "snap" in options:
        scene.moved = snapped(scene, drainage, gauges, whole(options["snap"][-1], 0))
    return [drainage.catchments(gauges) for gauges in scene.moved]


def map_of(name, drainage, scene, options):
    """One of the maps that take sinks alone."""
    unit = Fraction(1, 10 ** scene.decimals)
    if name in ("fill", "depth"):
        units = drainage.filled if name == "fill" else drainage.depth()
        return {cell: value * unit for cell, value in units.items()}
    if name == "flow":
        return drainage.codes
    if name == "basins":
        return without_small(drainage.basins(), whole(options.get("least", ["0"])[-1], 0))
    counts = drainage.accumulation()
    if name == "area":
        return {cell: (count + 1) * scene.side ** 2 for cell, count in counts.items()}
    if name == "streams":
        threshold = cells_of_area(scene, options["threshold"][-1])
        return {cell: int(count > threshold) for cell, count in counts.items()}
    return counts


def without_small(basins, least):
    """Basins of at least so many cells, 0 in smaller ones."""
    sizes = collections.Counter(basins.values())
    return {cell: basin if sizes[basin] >= least else 0 for cell, basin in basins.items()}
