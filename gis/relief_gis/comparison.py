"""Another program's map compared with the definition: what `relief-gis compare` tells."""
from __future__ import annotations

from dataclasses import dataclass
from decimal import Decimal
from functools import partial
from typing import TYPE_CHECKING, Callable, List, Optional

import numpy as np

from .differences import Pair, differences_of
from .errors import InputError
from .frame import Frame
from .geotiff import write_geotiff
from .lands import checked, heights_in_units, tell_rounding
from .making import NODATA_CODE, Request
from .program import Program
from .raster import Raster, Terrain, open_raster
from .requests import requests_of
from .targets import RASTER, beside, check_targets
from .units import plain

if TYPE_CHECKING:
    from .job import Caller, Job

# Places of cells may differ by the digits in which formats write them, in cells.
MOST_SHIFT = 1e-3
DESCRIPTIONS = {
    "fill": "the other map less the filled height", "accumulate": "the other map less the accumulation",
    "flow": "0: the direction; 1: another of equals; 2: neither; 3: no code; 4: the path has no end",
    "basins": "0: a basin of the same cells; 1: another one",
}

Say = Callable[[str], None]


@dataclass(frozen=True)
class Comparison:
    """A map of another program to be compared.

    Attributes:
        job: of the map that is right: its raster, sinks and how heights are read.
        other: the other map; band: its band.
        codes: of directions, a key of CODES.
        out: where the differences are written to, or None.
    """

    job: Job
    other: str
    band: int = 1
    codes: str = "arcgis"
    out: Optional[str] = None


def run_comparison(asked: Comparison, program: Program, caller: Caller, tell: Say) -> None:
    """Compares a map with the definition.

    Args:
        tell: takes the lines of the answer.

    Raises:
        GisError: of the kind that says what is wrong.
    """
    job = asked.job
    check_targets([(asked.out, RASTER)], {job.source: "the raster", asked.other: "the other map"})
    raster = open_raster(job.source, job.band, job.window, job.bounds, job.projection, job.needs_projection)
    terrain = checked(raster.read(), job, caller.say)
    heights = heights_in_units(terrain, job.decimals)
    tell_rounding(heights.rounding, heights.decimals, caller.say)
    other = _other(asked, terrain.frame, caller.say)
    requests, _ = requests_of(job, terrain.frame, heights, program, caller)
    ours = caller.make(requests[0], heights, program)
    if not (heights.valid & other.valid).any():
        raise InputError(f"{asked.other} has no data where {job.source} has")
    filled = None
    if job.map == "flow":
        filled = caller.make(Request("fill", requests[0].places, workers=job.workers, tile=job.tile), heights, program)
    pair = Pair(job.map, ours, other.values, other.valid, heights, requests[0].places, asked.other,
                partial(_coordinates, terrain.frame), asked.codes, filled)
    # What is refused later tells nothing.
    lines: List[str] = []
    differences = differences_of(pair, lines.append)
    for line in lines:
        tell(line)
    if asked.out is not None:
        _write(asked.out, differences, terrain.frame, job)


def _coordinates(frame: Frame, row: int, col: int) -> str:
    return ",".join(plain(Decimal(repr(number))) for number in frame.centre(row, col))


def _other(asked: Comparison, frame: Frame, say: Say) -> Terrain:
    """The other map, of the same cells."""
    raster = open_raster(asked.other, asked.band, asked.job.window, asked.job.bounds, None, False)
    _check_frame(raster, frame, asked)
    one, other = frame.spatial_reference(), raster.frame.spatial_reference()
    if one is not None and other is not None and not one.IsSame(other):
        say(f"{asked.other} names another projection than {asked.job.source}: its cells are taken by their coordinates")
    terrain = raster.read()
    if (terrain.scale, terrain.offset) != (1, 0):
        raise InputError(f"{asked.other} has a scale or offset: write it without one")
    return terrain


def _check_frame(raster: Raster, frame: Frame, asked: Comparison) -> None:
    found = raster.frame
    shifts = [abs(one - other) / frame.cell for one, other in zip(found.corner, frame.corner)]
    drift = abs(found.cell - frame.cell) / frame.cell * max(frame.cols, frame.rows)
    if (found.cols, found.rows) != (frame.cols, frame.rows) or max(*shifts, drift) > MOST_SHIFT:
        raise InputError(f"{asked.other} has other cells than {asked.job.source}: {found.cols:,} by {found.rows:,} of "
                         f"{plain(found.cell)} from {plain(found.corner[0])},{plain(found.corner[1])}, for "
                         f"{frame.cols:,} by {frame.rows:,} of {plain(frame.cell)} from "
                         f"{plain(frame.corner[0])},{plain(frame.corner[1])}")


def _write(path: str, differences: np.ndarray, frame: Frame, job: Job) -> None:
    nodata = float(NODATA_CODE) if differences.dtype == np.uint8 else float("nan")
    with beside(path) as names:
        write_geotiff(names(path), differences, frame, nodata, DESCRIPTIONS[job.map],
                      {"RELIEF_COMMAND": job.command} if job.command else {})
