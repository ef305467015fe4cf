"""From a raster of heights to a GeoTIFF of a map: the one path that command and QGIS take."""
from __future__ import annotations

from dataclasses import dataclass, replace
from decimal import Decimal
from fractions import Fraction
from functools import partial
from typing import Callable, List, Optional, Sequence, Union

import numpy as np

from . import edges
from .ahead import Ahead
from .curvature import REFRACTION
from .errors import Cancelled, UsageError
from .frame import Bounds, Window
from .heights import Heights
from .lands import checked, heights_in_units, tell_rounding, tell_units
from .making import SIGHT, Request, TakeRows, Use, make, make_together
from .measures import in_units_of
from .points import Layer, Point, Source
from .program import Program, Question, Report
from .raster import open_raster
from .requests import check_count
from .targets import RASTER, TABLE, VECTOR, check_targets
from .together import chief_of, run_together, sources_of
from .units import Measure, Reach

VOIDS = ("refuse", "drain", "fill")

Say = Callable[[str], None]


@dataclass(frozen=True)
class Job:
    """One map of one raster, in the user's units.

    Attributes:
        map: a key of `draft.DESCRIPTIONS`.
        source: the raster of heights; target: the GeoTIFF to be written.
        around: a place of which the catchment is read, and no more of the raster than it takes; None: all is.
        places: sinks; of `catchments` gauges; of `view` and `rise` observers.
        sinks: sinks of `catchments`.
        decimals: of heights; None: by the raster's type.
        voids: refuse, drain or fill, what holes inside the land are.
        skip: leave points out that lie outside the data or that are none; else they are refused.
        eye, above: heights of eyes and targets over the ground, in the unit of heights.
        radius: how far is seen, in the unit of the projection; None: over the whole raster.
        each: a band for each observer; visibility: where the table of who sees whom is written to.
        curvature: whether the earth's curvature counts, less the share of it that refraction takes away.
        threshold: of `streams`, more than so many other cells, or more than an area, drain through a stream's cells.
        lines: where streams are written to as lines.
        least: of `basins`, how many cells a basin has at least; smaller ones are none, 0.
        snap: gauges move to the greatest accumulation within so many cells; snapped: where they are written to.
        polygons: where the whole upstream area of each gauge is written to.
        uncertain: where the cells downstream of the data's edge are written to, of UNCERTAIN_MAPS.
        also_read: further files that the targets may not replace, as those of layers from which points came.
        command: the user's command, for the metadata.
    """

    map: str
    source: str
    target: str
    band: int = 1
    around: Optional[Point] = None
    window: Optional[Window] = None
    bounds: Optional[Bounds] = None
    projection: Optional[str] = None
    needs_projection: bool = True
    decimals: Optional[int] = None
    voids: str = "refuse"
    places: Sequence[Source] = ()
    sinks: Sequence[Source] = ()
    skip: bool = False
    eye: Optional[Decimal] = None
    above: Decimal = Decimal(0)
    radius: Optional[Reach] = None
    each: bool = False
    visibility: Optional[str] = None
    curvature: bool = False
    refraction: Decimal = REFRACTION
    threshold: Optional[Union[int, Measure]] = None
    lines: Optional[str] = None
    least: Optional[int] = None
    snap: Optional[int] = None
    snapped: Optional[str] = None
    polygons: Optional[str] = None
    uncertain: Optional[str] = None
    workers: int = 1
    tile: Optional[int] = None
    also_read: Sequence[str] = ()
    command: str = ""


@dataclass(frozen=True)
class Caller:
    """How a run speaks with who asked for it.

    Attributes:
        say: takes a line for the user.
        progress: takes how far the program is in each of its stages; None: not asked for.
        is_cancelled: asked ten times a second while the program runs, and before the map is written.
        by_percent: whether progress comes at each percent, at most ten times a second, and not at each tenth.
    """

    say: Say
    progress: Optional[Report] = None
    is_cancelled: Optional[Question] = None
    by_percent: bool = False

    def make(self, request: Request, heights: Heights, program: Program,
             on_rows: Optional[TakeRows] = None, keeps: bool = True) -> np.ndarray:
        """Makes a map, and tells of its progress."""
        return make(request, heights, program, self.progress, self.is_cancelled, self.by_percent, on_rows, keeps)

    def make_together(self, request: Request, heights: Heights, program: Program,
                      uses: Sequence[Use]) -> List[np.ndarray]:
        """Makes several maps by one run, and tells of its progress."""
        return make_together(request, heights, program, uses, self.progress, self.is_cancelled, self.by_percent)

    def check(self) -> None:
        """Raises Cancelled where the run was cancelled."""
        if self.is_cancelled is not None and self.is_cancelled():
            raise Cancelled("cancelled")


def run(job: Job, program: Program, caller: Caller) -> None:
    """Makes a map; the target is written whole, or not at all.

    Raises:
        GisError: of the kind that says what is wrong.
    """
    run_all([job], program, caller)


def run_all(jobs: Sequence[Job], program: Program, caller: Caller) -> None:
    """Makes maps of one raster by one run of the program; all targets are written whole, or none is.

    Args:
        jobs: one; or several of drainage, which differ in their maps, targets and what else is written of each alone.
            Sinks are the places of all but `catchments`, and those of `catchments` are the same.

    Raises:
        GisError: of the kind that says what is wrong.
    """
    _check_jobs(jobs, program)
    job = jobs[0]
    raster = open_raster(job.source, job.band, job.window, job.bounds, job.projection, job.needs_projection)
    jobs = [in_units_of(raster.frame, it) for it in jobs]
    job = chief_of(jobs)
    if job.map in SIGHT:
        # Other maps have no need of these modules.
        from .views import is_by_parts, run_by_parts

        if is_by_parts(job, raster):
            return run_by_parts(job, raster, program, caller)
    if job.around is not None:
        from .around import raster_around

        raster = raster_around(job, raster, job.around, program, caller)
    terrain = raster.read(cure="" if job.map in SIGHT else "have that of one place read by --around X,Y, ")
    for it in jobs:
        tell_units(terrain.frame, terrain.unit, it, caller.say)
    check: Callable[[Say], object] = partial(checked, terrain, job)
    if job.voids == "fill":
        # The heights are those of the filled holes.
        terrain, check = checked(terrain, job, caller.say), _find_nothing
    with Ahead(check, caller) as ahead:
        del check
        heights = heights_in_units(terrain, job.decimals)
        ahead.then(partial(_tell_rounding, heights))
        # They need as much memory as the map, and are dropped as soon as they are checked and rounded.
        terrain = replace(terrain, values=np.empty((0, 0), terrain.values.dtype))
        run_together(terrain, heights, jobs, program, ahead)


def _find_nothing(say: Say) -> None:
    """The check of a terrain that was checked before."""


def _tell_rounding(heights: Heights, say: Say) -> None:
    """Says by how much heights were rounded, as soon as all are."""
    tell_rounding(heights.rounding, heights.decimals, say)


def _check_jobs(jobs: Sequence[Job], program: Program) -> None:
    """Refuses, before anything is read, what this version lacks, missing places, and targets that cannot be."""
    if any(job.map == "catchments" or job.around is not None for job in jobs):
        program.require("catchments")
    if jobs[0].map == "rise":
        program.require("rise")
    if len(sources_of(jobs)) > 1:
        program.require("maps")
    for job in jobs:
        check_count(job, job.places)
        if job.uncertain is not None and job.map not in edges.UNCERTAIN_MAPS:
            raise UsageError(f"{job.map} has no uncertain cells: they are those of {', '.join(edges.UNCERTAIN_MAPS)}")
    layers = {source.file: "a layer of points" for job in jobs for source in (*job.places, *job.sinks)
              if isinstance(source, Layer)}
    read = {name: "a file" for job in jobs for name in job.also_read}
    targets = [target for job in jobs for target in (
        (job.target, RASTER), (job.snapped, VECTOR), (job.uncertain, RASTER), (job.visibility, TABLE),
        (job.polygons, VECTOR), (job.lines, VECTOR))]
    check_targets(targets, {**layers, jobs[0].source: "the raster", **read})


def bounds_of(numbers: Sequence[Decimal]) -> Bounds:
    """West, south, east and north as exact numbers."""
    west, south, east, north = (Fraction(number) for number in numbers)
    return west, south, east, north
