"""The words of the command `relief-gis`: its maps, their options, and what these are."""
from __future__ import annotations

import argparse
import os
from decimal import Decimal
from typing import IO, Any, Collection, List, NoReturn, Optional, Union

from . import __version__
from .arguments import MOST_WORKERS
from .console import NAME, say_if_heard, write
from .curvature import REFRACTION
from .edges import UNCERTAIN_MAPS
from .errors import UsageError
from .job import VOIDS, bounds_of
from .making import SIGHT
from .units import AREAS, MOST_DECIMALS, Measure, decimal_of, measure_of

ABOUT = {
    "fill": "filled heights",
    "flow": "D8 directions (E 1, SE 2, S 4, SW 8, W 16, NW 32, N 64, NE 128, outlet 0)",
    "accumulate": "how many other cells drain through each cell",
    "basins": "the number of the outlet to which each cell drains",
    "catchments": "which of the gauges each cell drains to first",
    "view": "how many of the observers see each cell",
    "rise": "the least height above each cell's ground at which one of the observers sees a target",
    "depth": "how deep each cell lies below its filled height",
    "area": "the area that drains through each cell, in square units of the projection",
    "streams": "1 where more than so many cells drain through a cell, else 0",
}
# What is no single map.
TASKS = {
    "maps": "several maps of drainage, made by one run of the program",
    "compare": "where another program's map differs from the definition, and by how much",
    "profile": "the ground under a line of sight, what blocks it, and the least eye and target that clear it",
}
# The maps that one run makes.
TOGETHER = tuple(name for name in ABOUT if name not in SIGHT)
EPILOG = """\
IN is any raster that GDAL opens, OUT a GeoTIFF, NAME.tif. Heights, eyes and targets are in the unit of the raster's
heights, radius and coordinates in the unit of its projection: usually metres.

Exit status: 0 the map was written; 1 words were refused; 2 the raster, a layer or a point was refused; 3 no memory or
thread; 4 reading or writing failed; 5 a program or module is missing; 130 interrupted.
"""


class _Parser(argparse.ArgumentParser):
    """A parser whose errors are one line with status 1, as those of `relief`."""

    def __init__(self, *words: Any, **more: Any) -> None:
        super().__init__(*words, **more)
        self.register("action", None, _Once)

    def error(self, message: str) -> NoReturn:
        say_if_heard(message, self.prog)
        self.exit(1)

    def _print_message(self, message: str, file: Optional[IO[str]] = None) -> None:
        if message:
            write(message, file)


class _Once(argparse.Action):
    """Stores the value of an option that has one; a second one is refused, as none is better than the other."""

    def __call__(self, parser: argparse.ArgumentParser, namespace: argparse.Namespace, values: Any,
                 option_string: Optional[str] = None) -> None:
        given = namespace.__dict__.setdefault("given_options", set())
        if option_string is not None and self.dest in given:
            parser.error(f"{option_string} is given twice: give it once")
        given.add(self.dest)
        setattr(namespace, self.dest, values)


def new_parser(words: Collection[str] = ()) -> argparse.ArgumentParser:
    """The parser of words, which has the options of the maps among them; those of all where none are given."""
    parser = _Parser(NAME, description="Drainage and visibility maps from raster to GeoTIFF, made by relief.",
                     epilog=EPILOG, formatter_class=argparse.RawDescriptionHelpFormatter)
    parser.add_argument("--version", action="version", version=f"{NAME} {__version__}")
    # A parser takes a millisecond: one stands for those of all maps that are not asked for.
    unused = _Parser(NAME)

    def parser_of(prog: str, **more: Any) -> _Parser:
        return _Parser(prog=prog, **more) if not words or prog.split()[-1] in words else unused

    maps = parser.add_subparsers(dest="map", metavar="MAP", required=True, parser_class=parser_of)
    for name, about in ABOUT.items():
        one = maps.add_parser(name, help=about, description=f"Writes {about}.", epilog=EPILOG,
                              formatter_class=argparse.RawDescriptionHelpFormatter)
        if words and name not in words:
            continue
        _add_common(one)
        _add_places(one, name)
        if name not in SIGHT:
            _add_around(one)
        if name in UNCERTAIN_MAPS:
            _add_uncertain(one)
        if name in OWN:
            OWN[name](one)
    for name, about in TASKS.items():
        one = maps.add_parser(name, help=about, description=f"{'Writes' if name == 'maps' else 'Tells'} {about}.",
                              epilog=EPILOG, formatter_class=argparse.RawDescriptionHelpFormatter)
        if words and name not in words:
            continue
        {"maps": _add_maps, "profile": _add_profile, "compare": _add_comparison}[name](one)
    return parser


def _add_around(parser: argparse.ArgumentParser) -> None:
    parser.add_argument("--around", metavar="X,Y",
                        help="a place: of IN, of any size, only a window that has its catchment is read")


def _add_uncertain(parser: argparse.ArgumentParser) -> None:
    parser.add_argument("--uncertain", metavar="OUT",
                        help="GeoTIFF of the cells downstream of where the data ends, NAME.tif: 1 in them, else 0")


def _add_streams(parser: argparse.ArgumentParser, is_required: bool = True) -> None:
    parser.add_argument("--threshold", type=_threshold, required=is_required, metavar="CELLS",
                        help="a stream's cells are those through which more than so many other cells drain, or more "
                             "than an area, as 5ha or 0.5km2")
    parser.add_argument("--lines", metavar="OUT",
                        help="GeoPackage of the streams as lines, from confluence to confluence, NAME.gpkg")


def _add_basins(parser: argparse.ArgumentParser) -> None:
    parser.add_argument("--least", type=_whole, metavar="CELLS", help="basins of fewer cells are none, 0")


def _add_maps(parser: argparse.ArgumentParser) -> None:
    """Adds a target for each map of drainage, and the options that these have."""
    parser.add_argument("source", metavar="IN", help="raster of heights")
    for name in TOGETHER:
        parser.add_argument(f"--{name}", dest=f"{name}_target", metavar="OUT", help=f"GeoTIFF, NAME.tif: {ABOUT[name]}")
    _add_reading(parser)
    _add_making(parser)
    _add_places(parser, "catchments")
    _add_gauges(parser)
    _add_around(parser)
    _add_uncertain(parser)
    _add_streams(parser, is_required=False)
    _add_basins(parser)


def _add_reading(parser: argparse.ArgumentParser) -> None:
    """Adds how heights are read."""
    add = parser.add_argument
    add("--band", type=int, default=1, metavar="N", help="band of IN, from 1")
    add("--decimals", type=int, choices=range(MOST_DECIMALS + 1), metavar="D",
        help="decimals of heights that are kept, 0 to 6 (of integers 0, of floats 2)")
    told = parser.add_mutually_exclusive_group()
    told.add_argument("--projection", metavar="EPSG:N", help="the projection of a raster that names none")
    told.add_argument("--no-projection", action="store_true", help="take a raster without projection as it is")


def _add_common(parser: argparse.ArgumentParser) -> None:
    add = parser.add_argument
    add("source", metavar="IN", help="raster of heights")
    add("target", metavar="OUT", help="GeoTIFF of the map, NAME.tif")
    _add_reading(parser)
    _add_making(parser)


def _add_making(parser: argparse.ArgumentParser) -> None:
    """Adds what of a raster is mapped, and how the program runs."""
    add = parser.add_argument
    add("--voids", choices=VOIDS, default="refuse",
        help="holes inside the land: refuse them, leave them as they are (water drains off there, and they block no "
             "view), or fill them by interpolation")
    cut = parser.add_mutually_exclusive_group()
    cut.add_argument("--window", type=_window, metavar="COL,ROW,COLS,ROWS", help="the part of IN to read, in cells")
    cut.add_argument("--bounds", type=_bounds, metavar="WEST,SOUTH,EAST,NORTH",
                     help="the part of IN to read, in coordinates")
    add("--workers", type=int, default=min(os.cpu_count() or 1, MOST_WORKERS), metavar="N",
        help="threads, 1 to 64 (as many as processors)")
    add("--tile", type=int, metavar="N", help="side in cells of what a thread takes at a time")
    add("--progress", action="store_true", help="show how far the run is")
    add("--relief", metavar="PATH", help="the program relief (that on the search path)")


def _add_places(parser: argparse.ArgumentParser, name: str) -> None:
    kind = "observer" if name in SIGHT else {"catchments": "gauge"}.get(name, "sink")
    parser.add_argument("--at", action="append", default=[], metavar="X,Y",
                        help=f"{'an' if kind == 'observer' else 'a'} {kind}, by coordinates; again and again")
    parser.add_argument("--points", action="append", default=[], metavar="LAYER",
                        help=f"{kind}s: points of a file, or of one of its layers by 'FILE|layername=NAME'")
    parser.add_argument("--skip", action="store_true",
                        help="leave out points that lie where there is no data, and say which; else they are refused")


def _add_view(parser: argparse.ArgumentParser) -> None:
    add = parser.add_argument
    _add_observers(parser, "--each and --visibility")
    add("--target", dest="above", action="append", default=[], metavar="H",
        help="height of the targets above the ground (0); once for all, or once for each --at")
    add("--target-field", metavar="FIELD",
        help="field of the points with the height of the target of each; --target is of --at then")
    add("--visibility", metavar="FILE",
        help="table, NAME.csv: how many cells each observer sees, and which others within its radius")


def _add_observers(parser: argparse.ArgumentParser, named: str = "--each") -> None:
    """Adds eyes and radii, and how the maps of observers are made.

    Args:
        named: the options that tell the observers' names.
    """
    add = parser.add_argument
    add("--eye", action="append", default=[], metavar="H",
        help="height of the eyes above the ground; once for all, or once for each --at")
    add("--eye-field", metavar="FIELD", help="field of the points with the height of each eye; --eye is of --at then")
    add("--radius", action="append", default=[], metavar="R",
        help="how far is seen, as 5000 or 5km, rounded down to whole cells; once for all, or once for each --at; of a "
             "raster of more than 4,096 columns or rows only what lies within it is read")
    add("--radius-field", metavar="FIELD", help="field of the points with the radius of each; --radius is of --at then")
    add("--each", action="store_true", help="a band for each observer, in their order, in place of one of all")
    add("--name-field", metavar="FIELD", help=f"field of the points with the name of each, for {named}")
    _add_curvature(parser)


def _add_comparison(parser: argparse.ArgumentParser) -> None:
    # Other runs have no need of these modules.
    from .differences import COMPARED
    from .foreign import CODES

    add = parser.add_argument
    add("source", metavar="IN", help="raster of heights")
    add("other", metavar="OTHER", help="the other program's map of the same cells")
    add("--map", dest="compared", choices=COMPARED, required=True, help="what the other map is")
    add("--codes", choices=tuple(CODES), default="arcgis",
        help="the codes of its directions (arcgis, which are also those of GDAL)")
    add("--other-band", type=int, default=1, metavar="N", help="band of OTHER, from 1")
    add("--out", metavar="OUT", help="GeoTIFF of the differences, NAME.tif")
    _add_reading(parser)
    _add_making(parser)
    _add_places(parser, "fill")


def _add_profile(parser: argparse.ArgumentParser) -> None:
    add = parser.add_argument
    add("source", metavar="IN", help="raster of heights, of any size")
    add("--from", dest="start", required=True, metavar="X,Y", help="the observer, by coordinates")
    add("--to", dest="end", required=True, metavar="X,Y", help="the target, by coordinates")
    add("--eye", required=True, metavar="H", help="height of the eye above the ground")
    add("--target", dest="above", default="0", metavar="H", help="height of the target above the ground (0)")
    _add_curvature(parser)
    _add_reading(parser)
    add("--out", metavar="FILE", help="table of the ground and the line of sight, NAME.csv")
    add("--picture", metavar="FILE", help="their picture, NAME.png, which takes matplotlib")


def _add_curvature(parser: argparse.ArgumentParser) -> None:
    parser.add_argument("--curvature", action="store_true",
                        help="ground far from the observer lies lower, by the earth's curvature less refraction")
    parser.add_argument("--refraction", metavar="K", help=f"the share of the curvature that refraction takes away "
                                                          f"({REFRACTION})")


def _add_gauges(parser: argparse.ArgumentParser) -> None:
    parser.add_argument("--sink-at", action="append", default=[], metavar="X,Y",
                        help="a sink, by coordinates; again and again")
    parser.add_argument("--sinks", action="append", default=[], metavar="LAYER",
                        help="sinks: points of a file, or of one of its layers by 'FILE|layername=NAME'")
    parser.add_argument("--snap", type=int, metavar="CELLS",
                        help="move each gauge to the greatest accumulation within so many rows and columns")
    parser.add_argument("--polygons", metavar="OUT",
                        help="GeoPackage of the whole upstream area of each gauge, with the gauges above it, NAME.gpkg")
    parser.add_argument("--snapped", metavar="OUT", help="GeoPackage of the gauges where they were moved to, NAME.gpkg")


# What a map has that others have not.
OWN = {"view": _add_view, "rise": _add_observers, "catchments": _add_gauges, "streams": _add_streams, "basins": _add_basins}


def _numbers(word: str, names: str) -> List[Decimal]:
    parts = word.split(",")
    if len(parts) != len(names.split(",")):
        raise argparse.ArgumentTypeError(f"{word} is not {names}")
    try:
        return [decimal_of(part) for part in parts]
    except UsageError as error:
        raise argparse.ArgumentTypeError(str(error)) from None


def _window(word: str) -> tuple:
    numbers = _numbers(word, "COL,ROW,COLS,ROWS")
    if any(number != int(number) for number in numbers):
        raise argparse.ArgumentTypeError(f"{word} is not in whole cells")
    return tuple(int(number) for number in numbers)


def _threshold(word: str) -> Union[int, Measure]:
    """A number of cells, or an area."""
    if not word.endswith(tuple(AREAS)):
        try:
            return _whole(word)
        except argparse.ArgumentTypeError as error:
            raise argparse.ArgumentTypeError(f"{error}, and no area in {', '.join(AREAS)}, as 5ha") from None
    try:
        found = measure_of(word, AREAS, "the area")
    except UsageError as error:
        raise argparse.ArgumentTypeError(str(error)) from None
    if not isinstance(found, Measure) or found.metres < 0:
        raise argparse.ArgumentTypeError(f"{word} is no area, from 0")
    return found


def _whole(word: str) -> int:
    """A number of cells."""
    if not word.isascii() or not word.isdecimal():
        raise argparse.ArgumentTypeError(f"{word} is no number of cells, from 0")
    return int(word)


def _bounds(word: str) -> tuple:
    return bounds_of(_numbers(word, "WEST,SOUTH,EAST,NORTH"))
