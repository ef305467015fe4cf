"""The command `relief-gis`: its runs, its lines, its status."""
from __future__ import annotations

import argparse
import re
import shlex
import signal
import sys
from dataclasses import replace
from decimal import Decimal
from typing import TYPE_CHECKING, Any, Callable, List, Mapping, Optional, Sequence, Tuple

from .console import NAME, Bar, open_streams, say, say_if_heard, write
from .curvature import REFRACTION
from .edges import UNCERTAIN_MAPS
from .errors import GisError, UsageError
from .job import Caller, Job, run_all
from .making import SIGHT
from .parser import TOGETHER, new_parser
from .points import Layer, Point, point_of_word
from .program import Program
from .units import LENGTHS, decimal_of, measure_of

# Modules that few runs take are imported where they are needed.
if TYPE_CHECKING:
    from .comparison import Comparison
    from .profiles import ProfileJob

NEGATIVE = re.compile(r"-[\d.]")


def _job(words: Sequence[str], asked: argparse.Namespace) -> Job:
    snap, snapped = getattr(asked, "snap", None), getattr(asked, "snapped", None)
    if snapped is not None and snap is None:
        raise UsageError("--snapped is where --snap writes the gauges to: give --snap CELLS")
    if snap is not None and snap < 0:
        raise UsageError(f"--snap {snap} is below 0")
    fields = _fields(asked)
    points = [point_of_word(word, f"point {at}") for at, word in enumerate(asked.at, 1)]
    points, (eye, above, radius) = _observers(points, asked)
    sinks = [point_of_word(word, f"sink {at}") for at, word in enumerate(getattr(asked, "sink_at", []), 1)]
    return Job(
        map=asked.map, source=asked.source, target=asked.target, band=asked.band, around=_around(asked),
        window=asked.window,
        bounds=asked.bounds, projection=asked.projection, needs_projection=not asked.no_projection,
        decimals=asked.decimals, voids=asked.voids, skip=asked.skip,
        places=[*points, *(Layer(path, *fields) for path in asked.points)],
        sinks=[*sinks, *map(Layer, getattr(asked, "sinks", []))],
        eye=eye, above=Decimal(0) if above is None else above, radius=radius, each=getattr(asked, "each", False),
        visibility=getattr(asked, "visibility", None), curvature=getattr(asked, "curvature", False),
        refraction=_refraction(asked) if asked.map in SIGHT else REFRACTION,
        threshold=getattr(asked, "threshold", None), lines=getattr(asked, "lines", None),
        least=getattr(asked, "least", None), snap=snap, snapped=snapped,
        polygons=getattr(asked, "polygons", None), uncertain=getattr(asked, "uncertain", None),
        workers=asked.workers, tile=asked.tile,
        command=shlex.join([NAME, *words]),
    )


# The options of single maps, as the names of their values.
OWN = {"streams": ("threshold", "lines"), "basins": ("least",), "catchments": ("snap", "snapped", "polygons")}


def _jobs(words: Sequence[str], asked: argparse.Namespace) -> List[Job]:
    """The jobs of several maps, each with the command that makes it alone."""
    from .typed import typed_command

    targets = {name: getattr(asked, f"{name}_target") for name in TOGETHER}
    targets = {name: target for name, target in targets.items() if target is not None}
    _check_together(asked, targets)
    jobs = []
    for name, target in targets.items():
        others = {option: None for other, options in OWN.items() if other != name for option in options}
        # The first map that has them is written with the cells downstream of where the data ends.
        if asked.uncertain is not None and name != next((it for it in targets if it in UNCERTAIN_MAPS), name):
            others["uncertain"] = None
        if name != "catchments":
            others.update(at=asked.sink_at, points=asked.sinks, sink_at=[], sinks=[])
        job = _job(words, argparse.Namespace(**{**vars(asked), "map": name, "target": target, **others}))
        jobs.append(replace(job, command=typed_command(job, "workers" in asked.given_options)))
    return jobs


def _check_together(asked: argparse.Namespace, targets: Mapping[str, str]) -> None:
    """Refuses several maps of which there is none, or that lack an option or have one of another map."""
    if not targets:
        raise UsageError(f"maps needs a map: give one or several of {', '.join(f'--{name} OUT' for name in TOGETHER)}")
    for name, options in OWN.items():
        given = next((option for option in options if getattr(asked, option) is not None), None)
        if given is not None and name not in targets:
            raise UsageError(f"--{given} is an option of {name}: give --{name} OUT too")
    if "catchments" not in targets and (asked.at or asked.points):
        raise UsageError("--at and --points are gauges of catchments: give --catchments OUT too, or name sinks by "
                         "--sink-at X,Y or --sinks LAYER")
    if "streams" in targets and asked.threshold is None:
        raise UsageError("streams needs a threshold: give --threshold CELLS")


def _around(asked: argparse.Namespace) -> Optional[Point]:
    """The place of which the catchment is read; None: all is."""
    word = getattr(asked, "around", None)
    return None if word is None else point_of_word(word, "the place of --around")


def _comparison(words: Sequence[str], asked: argparse.Namespace) -> Comparison:
    from .comparison import Comparison

    job = _job(words, argparse.Namespace(**{**vars(asked), "map": asked.compared, "target": ""}))
    return Comparison(job, asked.other, asked.other_band, asked.codes, asked.out)


def _profile_job(asked: argparse.Namespace) -> ProfileJob:
    from .profiles import ProfileJob

    return ProfileJob(
        source=asked.source, start=point_of_word(asked.start, "--from"), end=point_of_word(asked.end, "--to"),
        eye=decimal_of(asked.eye, "the eye"), above=decimal_of(asked.above, "the target"), band=asked.band,
        projection=asked.projection, needs_projection=not asked.no_projection, decimals=asked.decimals,
        curvature=asked.curvature, refraction=_refraction(asked), out=asked.out, picture=asked.picture)


def _refraction(asked: argparse.Namespace) -> Decimal:
    """The share of the curvature that refraction takes away."""
    if asked.refraction is None:
        return REFRACTION
    if not asked.curvature:
        raise UsageError("--refraction is a share of the earth's curvature: give --curvature too")
    share = decimal_of(asked.refraction, "the refraction")
    if not 0 <= share <= 1:
        raise UsageError(f"the refraction {share} is not 0 to 1")
    return share


def _fields(asked: argparse.Namespace) -> List[Optional[str]]:
    """The fields of layers: of eyes, targets, radii and names."""
    found = [_field(asked, name, option, what) for name, option, what in (
        ("eye", "--eye", "high the eyes"), ("above", "--target", "high the targets"),
        ("radius", "--radius", "long the radii"))]
    name_field = getattr(asked, "name_field", None)
    if name_field is not None and not asked.points:
        raise UsageError(f"--name-field {name_field} is a field of --points LAYER, which is not given")
    return [*found, name_field]


def _field(asked: argparse.Namespace, name: str, option: str, what: str) -> Optional[str]:
    """The field of what an option gives for words: where there are no words, only one of both has a meaning."""
    field = getattr(asked, f"{option[2:]}_field", None)
    if field is None:
        return None
    if not asked.points:
        raise UsageError(f"{option}-field {field} is a field of --points LAYER, which is not given")
    if getattr(asked, name) and not asked.at:
        raise UsageError(f"{option} and {option}-field {field} both say how {what} of --points are: give one of them")
    return field


def _observers(points: List[Point], asked: argparse.Namespace) -> Tuple[List[Point], List[Any]]:
    """Observers with what is given for each of them; and the eye, target and radius that are given for all, or None."""
    common: List[Any] = []
    for name, option in (("eye", "--eye"), ("above", "--target"), ("radius", "--radius")):
        units = LENGTHS if name == "radius" else {}
        numbers = [measure_of(word, units, f"the {option[2:]}") for word in getattr(asked, name, [])]
        common.append(numbers[0] if len(numbers) == 1 else None)
        if len(numbers) > 1:
            _check_pairs(option, len(numbers), asked)
            points = [replace(point, **{name: number}) for point, number in zip(points, numbers)]
    return points, common


def _check_pairs(option: str, count: int, asked: argparse.Namespace) -> None:
    """Refuses an option that is given several times, and not once for each observer."""
    if asked.points:
        raise UsageError(f"{option} is given {count} times, and the observers of --points have no order of the command "
                         "line: give it once")
    if count != len(asked.at):
        raise UsageError(f"{option} is given {count} times for {len(asked.at)} observers by --at: give it once, or "
                         "once for each")


def _joined(words: Sequence[str]) -> List[str]:
    """The words, each option joined to a number below 0 behind it, which argparse takes for an option."""
    found: List[str] = []
    for word in words:
        if NEGATIVE.match(word) and found and found[-1].startswith("--") and "=" not in found[-1]:
            found[-1] += f"={word}"
        else:
            found.append(word)
    return found


def _run(words: Sequence[str], asked: argparse.Namespace) -> None:
    if asked.map == "profile":
        from .profiles import run_profile

        run_profile(_profile_job(asked), say, _tell)
        return
    program = Program.find(asked.relief)
    if asked.map == "compare":
        from .comparison import run_comparison

        comparison = _comparison(words, asked)
        return _with_progress(asked, program, lambda caller: run_comparison(comparison, program, caller, _tell))
    jobs = _jobs(words, asked) if asked.map == "maps" else [_job(words, asked)]
    return _with_progress(asked, program, lambda caller: run_all(jobs, program, caller))


def _tell(line: str) -> None:
    """Writes a line of an answer."""
    write(f"{line}\n", sys.stdout)


def _with_progress(asked: argparse.Namespace, program: Program, work: Callable[[Caller], None]) -> None:
    """Does work, and shows its progress where that is asked for."""
    if not asked.progress:
        return work(Caller(say))
    if not program.has_progress:
        say(f"relief {program.version} reports no progress")
        return work(Caller(say))
    bar = Bar(NAME)
    try:
        return work(Caller(bar.say, bar, by_percent=bar.is_terminal))
    finally:
        bar.clear()


def _status(words: Sequence[str]) -> int:
    """Runs the command and says what is wrong; its exit status."""
    try:
        _check_encoding(words)
        _run(words, new_parser(words).parse_args(_joined(words)))
    except GisError as error:
        say_if_heard(str(error))
        return error.status
    except MemoryError:
        say_if_heard("out of memory: take a smaller grid, or free some memory")
        return 3
    except KeyboardInterrupt:
        say_if_heard("interrupted")
        return 130
    return 0


def _check_encoding(words: Sequence[str]) -> None:
    """Refuses words that GDAL and the metadata of a map cannot take."""
    for word in words:
        try:
            word.encode()
        except UnicodeEncodeError:
            raise UsageError(f"{ascii(word)} is not in UTF-8: rename the file, or the folder") from None


def main(words: Optional[Sequence[str]] = None) -> int:
    """Runs the command; its exit status."""
    words = sys.argv[1:] if words is None else words
    open_streams()
    # An end by a signal goes the way of an exception, so that no temporary file is left.
    signal.signal(signal.SIGTERM, lambda number, frame: sys.exit(128 + number))
    return _status(words)
