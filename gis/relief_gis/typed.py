"""The command by which a job's map is made again, as it is typed."""
from __future__ import annotations

import shlex
from decimal import Decimal, localcontext
from fractions import Fraction
from typing import Iterator, List, Optional, Sequence, Tuple, Union

from .comparison import Comparison
from .job import Job, Source
from .making import SIGHT
from .points import Layer, Point
from .units import Measure

# More digits than an exact decimal of a float's shortest text has.
MOST_DIGITS = 400
Option = Tuple[str, Optional[object]]


def typed_command(job: Job, has_workers: bool = True) -> str:
    """The command of a job, with all its parameters, for a shell; those of threads where they were given."""
    return shlex.join(["relief-gis", job.map, job.source, job.target, *_words_of(job, has_workers)])


def typed_comparison(comparison: Comparison) -> str:
    """The command of a comparison, likewise."""
    job = comparison.job
    words = ["relief-gis", "compare", job.source, comparison.other, "--map", job.map, "--codes", comparison.codes]
    words += ["--other-band", str(comparison.band)] if comparison.band != 1 else []
    words += ["--out", comparison.out] if comparison.out is not None else []
    return shlex.join([*words, *_words_of(job)])


def _words_of(job: Job, has_workers: bool = True) -> Iterator[str]:
    """The words of a job's options."""
    for name, value in (*_options(job), *_places("--at", "--points", job.places), *_observers(job),
                        *_places("--sink-at", "--sinks", job.sinks)):
        if value is not None and (has_workers or name != "--workers"):
            yield from [name] if value == "" else [name, _text(value)]


def _options(job: Job) -> List[Option]:
    """The options that have one value; those at their defaults have none, but for threads."""
    return [("--band", job.band if job.band != 1 else None),
            ("--around", None if job.around is None else (job.around.x, job.around.y)), ("--window", job.window),
            ("--bounds", job.bounds), ("--projection", job.projection),
            ("--no-projection", None if job.needs_projection else ""), ("--decimals", job.decimals),
            ("--voids", job.voids if job.voids != "refuse" else None), ("--skip", "" if job.skip else None),
            ("--threshold", job.threshold), ("--lines", job.lines), ("--least", job.least), ("--snap", job.snap),
            ("--snapped", job.snapped), ("--polygons", job.polygons), ("--uncertain", job.uncertain),
            ("--workers", job.workers), ("--tile", job.tile)]


def _places(word: str, layer: str, sources: Sequence[Source]) -> Iterator[Option]:
    for source in sources:
        if isinstance(source, Layer):
            yield layer, source.path
        else:
            yield word, (source.x, source.y)


def _observers(job: Job) -> Iterator[Option]:
    """What all observers have, once, or what each has, in their order."""
    if job.map not in SIGHT:
        return
    points = [source for source in job.places if isinstance(source, Point)]
    layers = [source for source in job.places if isinstance(source, Layer)]
    for option, name in (("--eye-field", "eye_field"), ("--target-field", "above_field"),
                         ("--radius-field", "radius_field"), ("--name-field", "name_field")):
        yield option, getattr(layers[0], name) if layers else None
    yield from (("--each", "" if job.each else None), ("--visibility", job.visibility),
                ("--curvature", "" if job.curvature else None),
                ("--refraction", job.refraction if job.curvature else None))
    for option, name, common in (("--eye", "eye", job.eye), ("--target", "above", job.above or None),
                                 ("--radius", "radius", job.radius)):
        own = [getattr(point, name) for point in points]
        each = [common if value is None else value for value in own] or [common]
        yield from ((option, value) for value in (each[:1] if len(set(each)) == 1 else each))


def _text(value: object) -> str:
    """A value as a word; numbers are exact and without exponent."""
    if isinstance(value, Measure):
        return value.word
    if isinstance(value, tuple):
        return ",".join(map(_text, value))
    if isinstance(value, (Decimal, Fraction)):
        return _decimal_text(value)
    return str(value)


def _decimal_text(value: Union[Decimal, Fraction]) -> str:
    with localcontext() as context:
        context.prec = MOST_DIGITS
        exact = Decimal(value.numerator) / value.denominator if isinstance(value, Fraction) else value
        return f"{exact.normalize():f}"
