"""The ground under a line of sight, what blocks it, and the least eye and the least target that clear it."""
from __future__ import annotations

import csv
import math
from dataclasses import dataclass
from decimal import Decimal
from fractions import Fraction
from typing import Callable, Iterator, List, Optional, Sequence, Tuple

from .curvature import REFRACTION, drop_of_a_cell, lowered
from .doubts import doubtful_heights
from .errors import InputError
from .frame import Frame
from .heights import MOST_SIDE
from .lands import heights_in_units, tell_rounding, tell_unit_of_heights, tell_unit_of_lengths
from .picture import draw_profile
from .points import Point, points_on_data
from .raster import Raster, Terrain, open_raster
from .sightline import Cell, Profile, profile_of
from .targets import PICTURE, TABLE, beside, check_targets
from .units import fraction_of, plain, whole_units

# Decimals of lengths, and of heights beyond those that are kept: the ground between two cells has more.
LENGTH_DECIMALS, MORE_DECIMALS = 3, 2
COLUMNS = ("distance", "x", "y", "ground", "line")

Say = Callable[[str], None]


@dataclass(frozen=True)
class ProfileJob:
    """One line of sight over a raster, in the user's units.

    Attributes:
        source: the raster of heights; band, projection, needs_projection, decimals as in `Job`.
        start, end: of the line, which leads from the centre of the one's cell to that of the other's.
        eye, above: heights of the eye at the start and of the target at the end over the ground.
        curvature: whether the earth's curvature counts, less the share of it that refraction takes away.
        out: where a table of the line is written to; picture: where its picture is.
    """

    source: str
    start: Point
    end: Point
    eye: Decimal
    above: Decimal = Decimal(0)
    band: int = 1
    projection: Optional[str] = None
    needs_projection: bool = True
    decimals: Optional[int] = None
    curvature: bool = False
    refraction: Decimal = REFRACTION
    out: Optional[str] = None
    picture: Optional[str] = None


def run_profile(job: ProfileJob, say: Say, tell: Say) -> Profile:
    """Works out a line of sight, tells of it, and writes its table and its picture.

    Args:
        say: takes lines on what is doubtful; tell: takes the lines of the answer.

    Raises:
        GisError: of the kind that says what is wrong.
    """
    check_targets([(job.out, TABLE), (job.picture, PICTURE)], {job.source: "the raster"})
    raster = open_raster(job.source, job.band, None, None, job.projection, job.needs_projection)
    tell_unit_of_lengths(raster.frame, say)
    tell_unit_of_heights(raster.unit, say)
    terrain, start, end = _ground_between(job, raster)
    for line in doubtful_heights(terrain):
        say(line)
    heights = heights_in_units(terrain, job.decimals)
    tell_rounding(heights.rounding, heights.decimals, say)
    decimals = heights.decimals
    eye, above = (whole_units(height, decimals, f"the {name}")
                  for height, name in ((job.eye, "eye"), (job.above, "target")))
    ground = [Fraction(int(heights.units[cell]), 10**decimals) for cell in (start, end)]
    if job.curvature:
        drop = drop_of_a_cell(terrain.frame, terrain.unit, decimals, job.refraction)
        heights = lowered(heights, start, drop, max(eye, above))
    profile = profile_of(heights, start, end, eye, above, decimals)
    line = Line(terrain.frame, start, end)
    for text in _answer(job, profile, line, ground, decimals):
        tell(text)
    _write(job, profile, line, decimals, say)
    return profile


@dataclass(frozen=True)
class Line:
    """The centres of the two cells between which a line of sight leads."""

    frame: Frame
    start: Cell
    end: Cell

    @property
    def length(self) -> float:
        """How long it is, in the unit of the projection."""
        return math.hypot(self.end[0] - self.start[0], self.end[1] - self.start[1]) * float(self.frame.cell)

    def place(self, along: Fraction) -> Tuple[Fraction, Fraction]:
        """The coordinates of a place of the line."""
        rows, cols = (first + along * (last - first) + Fraction(1, 2) for first, last in zip(self.start, self.end))
        return self.frame.corner[0] + cols * self.frame.across, self.frame.corner[1] + rows * self.frame.down


def _ground_between(job: ProfileJob, raster: Raster) -> Tuple[Terrain, Cell, Cell]:
    """The part of a raster between the ends of a line, and these in it."""
    faults: List[str] = []
    points_on_data([job.start, job.end], raster.frame, raster.has_data, faults)
    if faults:
        raise InputError("; ".join(faults))
    start, end = (raster.frame.cell_at(Fraction(point.x), Fraction(point.y)) for point in (job.start, job.end))
    if start == end:
        raise InputError(f"{job.start} and {job.end} lie in one cell: name two")
    (top, bottom), (left, right) = (sorted(pair) for pair in zip(start, end))
    rows, cols = bottom - top + 1, right - left + 1
    if max(rows, cols) > MOST_SIDE:
        raise InputError(f"the line spans {cols:,} columns and {rows:,} rows, and {MOST_SIDE:,} of each is the most: "
                         "take a shorter one, or make the cells larger: "
                         f"{raster.coarsening(max(rows, cols))}")
    terrain = raster.read((left, top, cols, rows))
    return terrain, (start[0] - top, start[1] - left), (end[0] - top, end[1] - left)


def _answer(job: ProfileJob, profile: Profile, line: Line, ends: Sequence[Fraction], decimals: int) -> Iterator[str]:
    """What is told of a line of sight, between two heights of the ground as they were read."""
    unknown = sum(ground is None for ground in profile.ground)
    lower = f", by the curvature {_height(ends[1] - profile.ground[-1], decimals)} lower" if job.curvature else ""
    yield (f"from {_words(line.place(Fraction(0)))}, ground {plain(ends[0])}, to {_words(line.place(Fraction(1)))}, "
           f"ground {plain(ends[1])}{lower}: {line.length:.{LENGTH_DECIMALS}f} long")
    if unknown:
        yield f"no data at {unknown:,} places of the line, which block no view"
    worst = profile.worst
    if worst is None:
        yield "seen: no ground lies between"
    else:
        cell = line.frame.centre(*worst.cell)
        distance = f"{float(worst.along) * line.length:.{LENGTH_DECIMALS}f}"
        yield (f"{'seen' if profile.is_seen else 'hidden'}: the ground lies {_height(abs(worst.excess), decimals)} "
               f"{'above' if worst.excess > 0 else 'below'} the line, {distance} from the eye, in the cell of "
               f"{_words([fraction_of(number) for number in cell])}")
    yield f"least eye: {profile.least_eye:f}, to see a target of {plain(job.above)}"
    yield f"least target: {profile.least_target:f}, to be seen from an eye of {plain(job.eye)}"


def _words(place: Sequence[Fraction]) -> str:
    """Coordinates as the words X,Y."""
    return ",".join(plain(Fraction(round(number * 1000), 1000)) for number in place)


def _height(height: Fraction, decimals: int) -> str:
    """A height with more decimals than are kept, since the ground between two cells has them."""
    places = decimals + MORE_DECIMALS
    return plain(Fraction(round(height * 10**places), 10**places))


def _write(job: ProfileJob, profile: Profile, line: Line, decimals: int, say: Say) -> None:
    """Writes the table and the picture beside their names, and then renames them."""
    paths = [path for path in (job.out, job.picture) if path is not None]
    if not paths:
        return
    with beside(paths[0]) as names:
        if job.out is not None:
            _write_table(names(job.out), profile, line, decimals)
        if job.picture is not None and not draw_profile(lambda: names(paths[-1]), profile, line):
            say(f"{job.picture} was not drawn: that takes matplotlib (package python3-matplotlib)")


def _write_table(path: str, profile: Profile, line: Line, decimals: int) -> None:
    with open(path, "w", encoding="utf-8", newline="") as file:
        table = csv.writer(file, lineterminator="\n")
        table.writerow(COLUMNS)
        for along, ground, sight in zip(profile.along, profile.ground, profile.line):
            place = (f"{float(number):.{LENGTH_DECIMALS}f}" for number in line.place(along))
            heights = ("" if height is None else _height(height, decimals) for height in (ground, sight))
            table.writerow([f"{float(along) * line.length:.{LENGTH_DECIMALS}f}", *place, *heights])
