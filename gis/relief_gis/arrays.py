"""The maps as functions of Python, from arrays to arrays.

In each function `heights` is a (rows, cols) grid of integers or floats, 1 to 4,096 each, row 0 in the north. It may be

- an array or a list; in any layout and byte order;
- a masked array: masked cells have no data, whatever lies under the mask, and the map is a masked array, of which the
  mask is set where there is no data;
- a DataArray of xarray: the map is a DataArray with its dims and coordinates. Rows whose coordinate rises begin in the
  south: they are turned for the map, which is then turned back. Cells in degrees, uneven or not square are refused.

Cells are square and heights are in any unit; `scale` is how many of their decimals are kept (0 to 6; None: 0 of
integers, 2 of floats), and floats are rounded to it. Cells that equal `nodata`, and NaN, have no data. Where heights
are floats, `nodata` is rounded to their type. Of a DataArray `nodata` is that of its attributes or encoding, unless it
is given. Places are (row, column) from 0, as in `heights`. `workers` is the number of threads, 1 to 64; it changes no
value.
"""
from __future__ import annotations

from dataclasses import replace
from decimal import Decimal
from fractions import Fraction
from functools import partial
from typing import Any, Callable, Dict, Iterator, List, NamedTuple, Optional, Sequence, Tuple

import numpy as np

from .arguments import MOST_WORKERS, drop_of_arguments, needed, radius_of, shown, units_of, whole_number
from .curvature import EARTH, REFRACTION, coarser, curved, finer, lowered
from .differences import COMPARED, Pair, differences_of
from .edges import uncertain_cells, uncertain_map
from .errors import InputError, UsageError
from .foreign import CODES
from .given import Given, given_of, other_map_of
from .heights import MOST_SIDE, Heights
from .making import (NODATA_CODE, NODATA_COUNT, SOURCES, Place, Request, Use, join_seen, make, make_together,
                     unseen)
from .program import Program
from .sightline import Profile, profile_of
from .small_basins import without_small
from .units import Number, decimal_of, side_of
from .sights import sights_of
from .words import PYTHON, spoken_in

Cell = Tuple[int, int]
Observer = Tuple[int, int, Number]
# A map is of the kind of its heights: np.ndarray (also of lists), np.ma.MaskedArray or xarray.DataArray.
Map = Any


def fill(heights: Any, nodata: Optional[float] = None, scale: Optional[int] = None, *,
         sinks: Sequence[Cell] = (), workers: int = 1, program: Optional[Program] = None) -> Map:
    """Filled heights: the least height at which each cell's water reaches the data's edge or a sink.

    Returns:
        (rows, cols) in the unit of `heights`: their own type if they are integers and `scale` is 0, else float64.
        Cells without data keep their value, rounded where their type is longer. The fill_value of a masked array is
        no height.

    Raises:
        InputError: the heights, an argument or a place has no map.
        ReliefError: `relief` refused; `number`, `name` and `place` say why.
        MissingError: `relief` is not installed.
    """
    with spoken_in(PYTHON):
        given = given_of(heights, nodata, scale)
        request = Request("fill", given.places(sinks, "sinks"), workers=_threads(workers))
        return given.filled(make(request, given.heights, program or Program.find()))


def flow(heights: Any, nodata: Optional[float] = None, scale: Optional[int] = None, *,
         sinks: Sequence[Cell] = (), workers: int = 1, program: Optional[Program] = None) -> Map:
    """D8 directions on the filled heights: E 1, SE 2, S 4, SW 8, W 16, NW 32, N 64, NE 128, outlet 0.

    Returns:
        (rows, cols) uint8, NODATA_CODE (255) where there is no data.

    Raises:
        InputError, ReliefError, MissingError: as in `fill`.
    """
    with spoken_in(PYTHON):
        given = given_of(heights, nodata, scale)
        return _counted("flow", given, given.places(sinks, "sinks"), workers, program)


def accumulate(heights: Any, nodata: Optional[float] = None, scale: Optional[int] = None, *,
               sinks: Sequence[Cell] = (), workers: int = 1, program: Optional[Program] = None) -> Map:
    """How many other cells' water flows through each cell.

    Returns:
        (rows, cols) int32, NODATA_COUNT (-9999) where there is no data.

    Raises:
        InputError, ReliefError, MissingError: as in `fill`.
    """
    with spoken_in(PYTHON):
        given = given_of(heights, nodata, scale)
        return _counted("accumulate", given, given.places(sinks, "sinks"), workers, program)


def basins(heights: Any, nodata: Optional[float] = None, scale: Optional[int] = None, *,
           sinks: Sequence[Cell] = (), least: int = 0, workers: int = 1, program: Optional[Program] = None) -> Map:
    """The number of the outlet to which each cell's water flows, from 1 in row order from the north.

    Args:
        least: how many cells a basin has at least; smaller ones are none, 0.

    Returns:
        (rows, cols) int32, NODATA_COUNT (-9999) where there is no data.

    Raises:
        InputError, ReliefError, MissingError: as in `fill`.
    """
    with spoken_in(PYTHON):
        fewest = whole_number(least, "least", 0, MOST_SIDE**2)
        given = given_of(heights, nodata, scale)
        return _basins(given, _made("basins", given, given.places(sinks, "sinks"), workers, program), fewest)


def catchments(heights: Any, gauges: Sequence[Cell], nodata: Optional[float] = None, scale: Optional[int] = None, *,
               sinks: Sequence[Cell] = (), workers: int = 1, program: Optional[Program] = None) -> Map:
    """The place in the list of gauges, from 1, of the first gauge that each cell's flow path meets; 0: none.

    Returns:
        (rows, cols) int32, NODATA_COUNT (-9999) where there is no data.

    Raises:
        MissingError: `relief` is not installed, or its version has no catchments.
        InputError, ReliefError: as in `fill`.
    """
    with spoken_in(PYTHON):
        given = given_of(heights, nodata, scale)
        places = needed(given.places(gauges, "gauges"), "gauges")
        return _counted("catchments", given, places, workers, program, sinks=given.places(sinks, "sinks"))


def view(heights: Any, observers: Sequence[Observer], nodata: Optional[float] = None, scale: Optional[int] = None, *,
         target: Number = 0, radius: Optional[int] = None, cell: Optional[Number] = None, curvature: bool = False,
         refraction: Number = REFRACTION, earth: Number = EARTH, workers: int = 1,
         program: Optional[Program] = None) -> Map:
    """How many of the observers see each cell.

    Args:
        observers: (row, column, eye), the eye above the ground in the unit of the heights, a whole number of
            10^-scale.
        target: height of the targets above the ground, likewise.
        radius: how far is seen, in cells, 1 to 8,192; None: over the whole grid.
        cell: the side of a cell in the unit of the heights, which curvature takes.
        curvature: whether the earth's curvature counts: ground at a distance d of an observer lies lower by
            (1 - refraction) d^2 / (2 earth). Each observer is a run then.
        refraction: the share of the curvature that refraction takes away, 0 to 1.
        earth: the earth's radius, in the unit of the heights.

    Returns:
        (rows, cols) int32, NODATA_COUNT (-9999) where there is no data.

    Raises:
        UsageError: an eye or the target is no whole number of units, curvature lacks the side of a cell, or a side,
            refraction or radius is none.
        InputError, ReliefError, MissingError: as in `fill`.
    """
    with spoken_in(PYTHON):
        given = given_of(heights, nodata, scale)
        request, drop = _view_request(given, observers, target, radius, workers, cell, curvature, refraction, earth)
        return given.counted(_seen(request, given.heights, drop, program or Program.find()), "view")


def rise(heights: Any, observers: Sequence[Observer], nodata: Optional[float] = None, scale: Optional[int] = None, *,
         radius: Optional[int] = None, cell: Optional[Number] = None, curvature: bool = False,
         refraction: Number = REFRACTION, earth: Number = EARTH, workers: int = 1,
         program: Optional[Program] = None) -> Map:
    """The least height above each cell's ground at which one of the observers sees a target.

    Args:
        as in `view`.

    Returns:
        (rows, cols) in the unit of `heights`, from 0 to 1,000,000 units: int64 if they are integers and `scale` is 0,
        else float64; NODATA_COUNT (-9999) where nobody sees a target, however high, and where there is no data.

    Raises:
        MissingError: `relief` is not installed, or its version has no rise.
        UsageError, InputError, ReliefError: as in `view`.
    """
    with spoken_in(PYTHON):
        given = given_of(heights, nodata, scale)
        request, drop = _view_request(given, observers, 0, radius, workers, cell, curvature, refraction, earth)
        found = _seen(replace(request, map="rise"), given.heights, drop, program or Program.find())
        dtype = np.dtype(np.int64 if given.is_whole else np.float64)
        risen = np.where(found == NODATA_COUNT, dtype.type(NODATA_COUNT), given.heights.values(found, dtype))
        return given.counted(risen, "rise")


def view_each(heights: Any, observers: Sequence[Observer], nodata: Optional[float] = None, scale: Optional[int] = None,
              *, target: Number = 0, radius: Optional[int] = None, cell: Optional[Number] = None,
              curvature: bool = False, refraction: Number = REFRACTION, earth: Number = EARTH, workers: int = 1,
              program: Optional[Program] = None) -> List[Map]:
    """What each of the observers sees by itself.

    Args:
        as in `view`.

    Returns:
        A map for each observer, in their order: (rows, cols) int32, 1 where it sees the cell, else 0, NODATA_COUNT
        (-9999) where there is no data.

    Raises:
        UsageError, InputError, ReliefError, MissingError: as in `view`.
    """
    with spoken_in(PYTHON):
        given = given_of(heights, nodata, scale)
        request, drop = _view_request(given, observers, target, radius, workers, cell, curvature, refraction, earth)
        return [given.counted(found, "view")
                for _, found in _seen_by_each(request, given.heights, drop, program or Program.find())]


class Sight(NamedTuple):
    """How an observer sees another one's eye.

    Attributes:
        observer, other: their places in the list of observers, from 0.
        distance: between the centres of their cells, in sides of a cell.
        is_seen: whether the other one's eye is seen.
        least_height: the least height above the other one's ground at which it is, in the unit of the heights.
    """

    observer: int
    other: int
    distance: float
    is_seen: bool
    least_height: Decimal


class Visibility(NamedTuple):
    """How many cells each observer sees, in their order, and how each sees the others within its radius."""

    cells: Tuple[int, ...]
    sights: Tuple[Sight, ...]


def visibility(heights: Any, observers: Sequence[Observer], nodata: Optional[float] = None,
               scale: Optional[int] = None, *, target: Number = 0, radius: Optional[int] = None,
               cell: Optional[Number] = None, curvature: bool = False, refraction: Number = REFRACTION,
               earth: Number = EARTH, workers: int = 1, program: Optional[Program] = None) -> Visibility:
    """Who sees whom: for each observer how many cells it sees, and which others.

    Args:
        as in `view`; the target is that of the cells, others are seen at their own eyes.

    Returns:
        A named tuple: `cells`, of each observer; `sights`, of each pair of observers of which the first has the other
        within its radius, by their places in the list.

    Raises:
        UsageError, InputError, ReliefError, MissingError: as in `view`.
    """
    with spoken_in(PYTHON):
        given = given_of(heights, nodata, scale)
        request, drop = _view_request(given, observers, target, radius, workers, cell, curvature, refraction, earth)
        cells, sights, decimals = [], [], given.heights.decimals
        for at, (ground, found) in enumerate(_seen_by_each(request, given.heights, drop, program or Program.find())):
            cells.append(int(np.count_nonzero(found > 0)))
            sights += [Sight(at, it.other, it.cells, it.is_seen, Decimal(it.least).scaleb(-decimals))
                       for it in sights_of(at, request.places, decimals, (0, 0), ground, request.radius)]
        return Visibility(tuple(cells), tuple(sights))


def uncertain(heights: Any, nodata: Optional[float] = None, scale: Optional[int] = None, *,
              sinks: Sequence[Cell] = (), workers: int = 1, program: Optional[Program] = None) -> Map:
    """Which cells lie where the data ends or downstream of it: land beyond may drain in, and counts be too small.

    Returns:
        (rows, cols) uint8, 1 or 0, NODATA_CODE (255) where there is no data.

    Raises:
        InputError, ReliefError, MissingError: as in `fill`.
    """
    with spoken_in(PYTHON):
        given = given_of(heights, nodata, scale)
        request = Request("flow", given.places(sinks, "sinks"), workers=_threads(workers))
        codes = make(request, given.heights, program or Program.find())
        valid = given.heights.valid
        return given.counted(uncertain_map(uncertain_cells(codes, valid), valid), "uncertain")


def depth(heights: Any, nodata: Optional[float] = None, scale: Optional[int] = None, *,
          sinks: Sequence[Cell] = (), workers: int = 1, program: Optional[Program] = None) -> Map:
    """How deep each cell lies below its filled height, as `fill` has it.

    Returns:
        (rows, cols) in the unit of `heights`: int64 if they are integers and `scale` is 0, else float64; NODATA_COUNT
        (-9999) where there is no data.

    Raises:
        InputError, ReliefError, MissingError: as in `fill`.
    """
    with spoken_in(PYTHON):
        given = given_of(heights, nodata, scale)
        request = Request("fill", given.places(sinks, "sinks"), workers=_threads(workers))
        return _depth(given, make(request, given.heights, program or Program.find()))


def area(heights: Any, cell: Number, nodata: Optional[float] = None, scale: Optional[int] = None, *,
         sinks: Sequence[Cell] = (), workers: int = 1, program: Optional[Program] = None) -> Map:
    """The area that drains through each cell, its own with it.

    Args:
        cell: the side of a cell, in any unit of length; a float stands for the simplest fraction within one part in
            10^9 of it.

    Returns:
        (rows, cols) float64 in the square of that unit, NODATA_COUNT (-9999) where there is no data.

    Raises:
        UsageError: the side is no number above 0.
        InputError, ReliefError, MissingError: as in `fill`.
    """
    with spoken_in(PYTHON):
        side = _side(cell)
        given = given_of(heights, nodata, scale)
        return _area(given, _made("accumulate", given, given.places(sinks, "sinks"), workers, program), side)


def streams(heights: Any, threshold: int, nodata: Optional[float] = None, scale: Optional[int] = None, *,
            sinks: Sequence[Cell] = (), workers: int = 1, program: Optional[Program] = None) -> Map:
    """Where more than so many other cells drain through a cell.

    Args:
        threshold: so many, from 0.

    Returns:
        (rows, cols) uint8, 1 or 0, NODATA_CODE (255) where there is no data.

    Raises:
        InputError, ReliefError, MissingError: as in `fill`.
    """
    with spoken_in(PYTHON):
        most = whole_number(threshold, "threshold", 0, MOST_SIDE**2)
        given = given_of(heights, nodata, scale)
        return _streams(given, _made("accumulate", given, given.places(sinks, "sinks"), workers, program), most)


def profile(heights: Any, start: Cell, end: Cell, eye: Number, nodata: Optional[float] = None,
            scale: Optional[int] = None, *, target: Number = 0, cell: Optional[Number] = None, curvature: bool = False,
            refraction: Number = REFRACTION, earth: Number = EARTH) -> Profile:
    """The ground under the line of sight between two cells, what blocks it, and the least eye and target that clear it.

    Args:
        start, end: (row, column) of the observer and of the target, with data.
        eye, target: their heights above the ground in the unit of the heights, whole numbers of 10^-scale.
        cell, curvature, refraction, earth: as in `view`; ground lies lower by its distance from the start.

    Returns:
        A `Profile`, of which heights are exact fractions in the unit of `heights`.

    Raises:
        UsageError: the eye or the target is no whole number of units, or curvature as in `view`.
        InputError: the heights or a place have no line of sight.
    """
    with spoken_in(PYTHON):
        given = given_of(heights, nodata, scale)
        places = [given.place(cell, name) for cell, name in ((start, "start"), (end, "end"))]
        units = [units_of(height, given.heights.decimals, name) for height, name in ((eye, "eye"), (target, "target"))]
        ends = [(place.row, place.col) for place in places]
        decimals = given.heights.decimals
        drop = drop_of_arguments(cell, curvature, refraction, earth, decimals)
        ground = given.heights if drop is None else lowered(given.heights, ends[0], drop, max(units))
        found = profile_of(ground, *ends, *units, decimals)
        return found if found.worst is None else replace(
            found, worst=replace(found.worst, cell=given.cell(*found.worst.cell)))


def compare(heights: Any, other: Any, map: str, nodata: Optional[float] = None, scale: Optional[int] = None, *,
             codes: str = "arcgis", other_nodata: Optional[float] = None,
            sinks: Sequence[Cell] = (), workers: int = 1, program: Optional[Program] = None) -> Differences:
    """Where another program's map of the same cells differs from the definition, and by how much.

    Args:
        other: (rows, cols), the other map, of any kind that heights may have.
        map: what it is: "fill" (in the unit of the heights), "flow", "accumulate" (in cells) or "basins".
        codes: those of its directions: "arcgis" (and GDAL), "grass" (r.watershed), "saga", "taudem", "whitebox", or of
            GRASS's r.fill.dir "degrees" or "agnps".
        other_nodata: the value of the other map that means no data, as `nodata` of the heights.

    Returns:
        The lines that `relief-gis compare` tells, with cells as row,column; and of each cell (rows, cols) the other
        map less the definition (`fill` and `accumulate`, float64, NaN where one of both has no data), the class of its
        direction (`flow`, uint8: 0 the same, 1 another of equals, 2 neither, 3 no code, 4 a path without end), or 1
        where its basin is another set of cells (`basins`, uint8); NODATA_CODE (255) where one of both has no data.

    Raises:
        UsageError: there is no such map, there are no such codes, or most directions are none of them.
        InputError, ReliefError, MissingError: as in `fill`; the other map is no map of as many cells.
    """
    with spoken_in(PYTHON):
        if map not in COMPARED:
            raise UsageError(f"map={shown(map)} is none of {', '.join(COMPARED)}")
        if codes not in CODES:
            raise UsageError(f"codes={shown(codes)} is none of {', '.join(CODES)}")
        given = given_of(heights, nodata, scale)
        theirs, has_theirs = other_map_of(other, other_nodata, given.values.shape)
        if not (given.heights.valid & has_theirs).any():
            raise InputError("the other map has no data where the heights have")
        places = given.places(sinks, "sinks")
        ours = _made(map, given, places, workers, program)
        filled = _made("fill", given, places, workers, program) if map == "flow" else None
        pair = Pair(map, ours, theirs, has_theirs, given.heights, places, "the other map",
                    lambda row, col: "{},{}".format(*given.cell(row, col)), codes, filled)
        lines: List[str] = []
        differences = differences_of(pair, lines.append)
        return Differences(tuple(lines), given.compared(differences, f"differences of {map}"))


class Maps(NamedTuple):
    """Maps that were made together; None: not asked for."""

    fill: Map = None
    depth: Map = None
    flow: Map = None
    accumulate: Map = None
    area: Map = None
    streams: Map = None
    basins: Map = None
    catchments: Map = None


def maps(heights: Any, wanted: Sequence[str], nodata: Optional[float] = None, scale: Optional[int] = None, *,
         sinks: Sequence[Cell] = (), gauges: Sequence[Cell] = (), cell: Optional[Number] = None,
         threshold: Optional[int] = None, least: int = 0, workers: int = 1,
         program: Optional[Program] = None) -> Maps:
    """Several maps of drainage by one run of the program, in the time of little more than one of them.

    Args:
        wanted: their names, fields of `Maps`.
        gauges: those of "catchments", as in `catchments`.
        cell: the side of a cell for "area", as in `area`.
        threshold: that of "streams", as in `streams`; least: that of "basins", as in `basins`.

    Returns:
        A named tuple: each map as the function of its name returns it, and None for those that were not asked for.

    Raises:
        UsageError: a name is none or given twice, or a map lacks an argument.
        MissingError: `relief` is not installed, or its version cannot make several maps by one run.
        InputError, ReliefError: as in `fill`.
    """
    with spoken_in(PYTHON):
        names = _names(wanted, gauges, cell, threshold)
        sources = list(dict.fromkeys(SOURCES[name] for name in names))
        program = program or Program.find()
        if "catchments" in sources:
            program.require("catchments")
        if len(sources) > 1:
            program.require("maps")
        side = _side(cell) if "area" in names else Fraction(1)
        most = whole_number(threshold, "threshold", 0, MOST_SIDE**2) if "streams" in names else 0
        fewest = whole_number(least, "least", 0, MOST_SIDE**2)
        given = given_of(heights, nodata, scale)
        found = _made_together(sources, given, sinks, gauges, workers, program)
        finish: Dict[str, Callable[[np.ndarray], Map]] = {
            "fill": given.filled, "depth": partial(_depth, given), "area": partial(_area, given, side=side),
            "streams": partial(_streams, given, most=most), "basins": partial(_basins, given, least=fewest),
            **{name: partial(given.counted, name=name) for name in ("flow", "accumulate", "catchments")}}
        return Maps(**{name: finish[name](found[SOURCES[name]]) for name in names})


def _names(wanted: Sequence[str], gauges: Sequence[Cell], cell: Optional[Number],
           threshold: Optional[int]) -> List[str]:
    """The names of maps that are asked for.

    Raises:
        UsageError: one is none or given twice, or lacks an argument.
    """
    names = [wanted] if isinstance(wanted, str) else list(wanted)
    for at, name in enumerate(names):
        if name not in Maps._fields:
            raise UsageError(f"wanted[{at}]={shown(name)} is none of {', '.join(Maps._fields)}")
        if name in names[:at]:
            raise UsageError(f"wanted names {name} twice")
    if not names:
        raise UsageError(f"wanted= is empty: name at least one of {', '.join(Maps._fields)}")
    for name, value, argument in (("area", cell, "cell"), ("streams", threshold, "threshold"),
                                  ("catchments", gauges or None, "gauges")):
        if name in names and value is None:
            raise UsageError(f"{name} takes {argument}=")
    if gauges and "catchments" not in names:
        raise UsageError("gauges= are those of catchments, which is not wanted")
    return names


def _made_together(sources: Sequence[str], given: Given, sinks: Sequence[Cell], gauges: Sequence[Cell], workers: Any,
                   program: Program) -> Dict[str, np.ndarray]:
    """Maps of the program, north up, by one run."""
    places, gauge_places = given.places(sinks, "sinks"), given.places(gauges, "gauges")
    request = Request("maps", gauge_places, places, sources, workers=_threads(workers))
    if list(sources) == ["catchments"]:
        request = replace(request, map="catchments")
    elif len(sources) == 1:
        request = replace(request, map=sources[0], places=places, sinks=())
    return dict(zip(sources, make_together(request, given.heights, program, [Use(name) for name in sources])))


def _side(cell: Any) -> Fraction:
    """The side of a cell.

    Raises:
        UsageError: it is no number above 0.
    """
    side = float(decimal_of(cell, "cell"))
    if side <= 0:
        raise UsageError(f"cell={cell} is not above 0")
    return side_of(side)


def _depth(given: Given, filled: np.ndarray) -> Map:
    below = filled.astype(np.int64) - given.heights.units
    dtype = np.dtype(np.int64 if given.is_whole else np.float64)
    return given.counted(_with_nodata(given, given.heights.values(below, dtype)), "depth")


def _area(given: Given, counts: np.ndarray, side: Fraction) -> Map:
    # One rounding: the area is the float that is nearest to it.
    by, part = map(float, (side**2).as_integer_ratio())
    return given.counted(_with_nodata(given, (counts + 1.0) * by / part), "area")


def _streams(given: Given, counts: np.ndarray, most: int) -> Map:
    return given.counted(np.where(given.heights.valid, counts > most, np.uint8(NODATA_CODE)), "streams")


def _basins(given: Given, found: np.ndarray, least: int) -> Map:
    return given.counted(without_small(found, least, lambda line: None) if least else found, "basins")


class Differences(NamedTuple):
    """How another program's map differs from the definition: the lines that tell it, and each cell's difference."""

    lines: Tuple[str, ...]
    cells: Map


def _view_request(given: Given, observers: Sequence[Observer], target: Any, radius: Any, workers: Any,
                  *curvature: Any) -> Tuple[Request, Optional[Fraction]]:
    """What the program is asked for, and the drop of the ground at a distance of one cell; None: the earth is flat.

    Args:
        curvature: the arguments of `view` that tell the drop.
    """
    places = needed(given.observers(observers), "observers")
    drop = drop_of_arguments(*curvature, given.heights.decimals)
    return Request("view", places, target=units_of(target, given.heights.decimals, "target"), radius=radius_of(radius),
                   workers=_threads(workers)), drop


def _seen(request: Request, heights: Heights, drop: Optional[Fraction], program: Program) -> np.ndarray:
    """What the observers of a request see, each on ground that drops away from it."""
    if drop is None:
        return make(request, heights, program)
    found = unseen(request.map, heights.valid)
    for _, seen in _seen_by_each(request, heights, drop, program):
        join_seen(request.map, found, seen)
    return found


def _seen_by_each(request: Request, heights: Heights, drop: Optional[Fraction],
                  program: Program) -> Iterator[Tuple[Heights, np.ndarray]]:
    """The ground as it lies for each of the observers of a request, and what that one sees."""
    rows, cols = heights.shape
    if not all(it.row < rows and it.col < cols and heights.valid[it.row, it.col] for it in request.places):
        # The program refuses them, and says which one.
        make(request, heights, program)
    for place in request.places:
        asked, ground = replace(request, places=[place]), heights
        if drop is not None:
            asked, ground = curved(asked, heights, drop)
        yield ground, coarser(request.map, make(asked, ground, program), finer(ground, heights.decimals))


def _with_nodata(given: Given, values: np.ndarray) -> np.ndarray:
    return np.where(given.heights.valid, values, values.dtype.type(NODATA_COUNT))


def _counted(name: str, given: Given, places: Sequence[Place], workers: Any, program: Optional[Program],
             **more: Any) -> Map:
    """A map of codes or counts."""
    return given.counted(_made(name, given, places, workers, program, **more), name)


def _made(name: str, given: Given, places: Sequence[Place], workers: Any, program: Optional[Program],
          **more: Any) -> np.ndarray:
    """A map of codes or counts, north up."""
    request = Request(name, places, workers=_threads(workers), **more)
    return make(request, given.heights, program or Program.find())


def _threads(workers: Any) -> int:
    return whole_number(workers, "workers", 1, MOST_WORKERS)
