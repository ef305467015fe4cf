"""What the program is asked for: the points of a job as places, checked, moved to streams, and sorted into runs."""
from __future__ import annotations

from decimal import Decimal
from typing import TYPE_CHECKING, Callable, Dict, List, Mapping, Optional, Sequence, Tuple

import numpy as np

from .errors import InputError, UsageError
from .frame import Frame
from .grid_text import TakeRows
from .heights import Heights
from .making import SIGHT, SOURCES, Place, Request, join_seen, lower_neighbour
from .points import Point, Source, places_of, points_of, points_on_data, snap
from .program import Program
from .units import Reach, counted, fraction_of, plain, radius_in_cells, whole_units

if TYPE_CHECKING:
    from .job import Caller, Job

# How many points without a place a refusal names.
MOST_NAMED = 10
# The maps that need places, and what these are.
NEEDED_PLACES = {"catchments": "gauges", **{name: "observers" for name in SIGHT}}

Say = Callable[[str], None]
# Moved gauges and the accumulation at each.
Gauges = Tuple[List[Place], List[int]]


def check_count(job: Job, places: Sequence[object]) -> None:
    """Refuses a map without the gauges or observers that it takes."""
    if job.map in NEEDED_PLACES and not places:
        raise UsageError(f"{job.map} needs {NEEDED_PLACES[job.map]}: give --at X,Y or --points LAYER")


def requests_of(job: Job, frame: Frame, heights: Heights, program: Program,
                caller: Caller) -> Tuple[List[Request], Optional[Gauges]]:
    """What the program is asked for, and gauges that were moved."""
    def has_data(row: int, col: int) -> bool:
        return bool(heights.valid[row, col])

    points = points_in(job, job.places, frame, has_data, caller.say)
    # A layer may have no points.
    check_count(job, points)
    if job.map in SIGHT:
        return views(job, points, frame, heights.decimals, radii(job, points, frame, caller.say)), None
    places = places_of(points, frame)
    if job.map != "catchments":
        _tell_sinks(places, frame, heights, caller.say)
        return [Request(SOURCES[job.map], places, workers=job.workers, tile=job.tile)], None
    sinks = places_of(points_in(job, job.sinks, frame, has_data, caller.say), frame)
    _tell_sinks(sinks, frame, heights, caller.say)
    gauges = None
    if job.snap is not None:
        request = Request("accumulate", sinks, workers=job.workers, tile=job.tile)
        counts = caller.make(request, heights, program)
        places = _snapped(places, counts, job.snap, frame, caller.say)
        gauges = places, [int(counts[place.row, place.col]) for place in places]
    return [Request("catchments", places, sinks, workers=job.workers, tile=job.tile)], gauges


def points_in(job: Job, sources: Sequence[Source], frame: Frame, has_data: Callable[[int, int], bool],
              say: Say) -> List[Point]:
    """The points that lie in cells with data; others are refused, or left out where the job says so."""
    notes: List[str] = []
    faults: List[str] = []
    points = points_of(sources, frame, notes, faults)
    points = points_on_data(points, frame, has_data, faults)
    for note in notes + [f"left out: {fault}" for fault in faults if job.skip]:
        say(note)
    if faults and not job.skip:
        raise InputError(_words_of_faults(faults))
    return points


def _words_of_faults(faults: Sequence[str]) -> str:
    if len(faults) == 1:
        return f"{faults[0]}: --skip leaves it out"
    more = f"; and {len(faults) - MOST_NAMED:,} more" if len(faults) > MOST_NAMED else ""
    return f"{len(faults):,} points have no place: {'; '.join(faults[:MOST_NAMED])}{more}: --skip leaves them out"


def radii(job: Job, points: Sequence[Point], frame: Frame, say: Say) -> Dict[Reach, int]:
    """How many whole cells each radius of observers has, which is told."""
    found = {}
    for point in points:
        radius = radius_of(job, point)
        if radius is not None and radius not in found:
            found[radius] = radius_in_cells(radius, frame.cell)
    for radius, count in found.items():
        say(f"radius {plain(radius)}: {counted(count, 'whole cell', 'whole cells')} of {plain(frame.cell)}")
    return found


def radius_of(job: Job, point: Point) -> Optional[Reach]:
    """How far an observer sees, in the unit of the projection; None: over all that is read."""
    return job.radius if point.radius is None else point.radius


def views(job: Job, points: Sequence[Point], frame: Frame, decimals: int,
          cells: Mapping[Reach, int]) -> List[Request]:
    """A request for each target height and radius, of which the program takes one each.

    Args:
        cells: of each radius, how many it has.
    """
    groups: Dict[Tuple[Decimal, Optional[Reach]], List[Point]] = {}
    for point in points:
        above = job.above if point.above is None else point.above
        groups.setdefault((above, radius_of(job, point)), []).append(point)
    return [Request(job.map, places_of(group, frame, decimals, job.eye),
                    target=whole_units(above, decimals, "the target"),
                    radius=None if radius is None else cells[radius], workers=job.workers, tile=job.tile)
            for (above, radius), group in groups.items()]


def made(requests: Sequence[Request], heights: Heights, program: Program, caller: Caller,
         on_rows: TakeRows, keeps: bool) -> np.ndarray:
    """The map of one request; of several, which are those of observers, what all of these see.

    Args:
        on_rows: called with strips of the map, and their first rows, where they are written one after the other.
        keeps: whether such a map is kept.
    """
    if len(requests) == 1:
        return caller.make(requests[0], heights, program, on_rows, keeps)
    found = caller.make(requests[0], heights, program)
    for request in requests[1:]:
        join_seen(request.map, found, caller.make(request, heights, program))
    return found


def _tell_sinks(sinks: Sequence[Place], frame: Frame, heights: Heights, say: Say) -> None:
    """Says which sinks have a lower cell beside them, into which their water goes on."""
    for sink in sinks:
        lower = lower_neighbour(heights, sink)
        if lower is not None:
            say(f"{sink.name} has a lower cell beside it, at {_coordinates(frame, *lower)}, and may pass its water on: "
                "name the lowest cell")


def _coordinates(frame: Frame, row: int, col: int) -> str:
    """The centre of a cell as the words X,Y."""
    return ",".join(plain(fraction_of(number)) for number in frame.centre(row, col))


def _snapped(places: Sequence[Place], counts: np.ndarray, cells: int, frame: Frame, say: Say) -> List[Place]:
    moved = snap(places, counts, cells)
    for before, after in zip(places, moved):
        if (before.row, before.col) == (after.row, after.col):
            say(f"{before.name} stays: {counts[after.row, after.col]:,} other cells drain through its cell, the most "
                "there")
        else:
            say(f"{before.name} moved to {_coordinates(frame, after.row, after.col)}: "
                f"{counts[after.row, after.col]:,} other cells drain through it, "
                f"{counts[before.row, before.col]:,} before")
    return moved
