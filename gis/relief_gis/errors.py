"""What can go wrong: each error has a text that says what to do, and the status of the command."""
from __future__ import annotations

from typing import Optional

# What the program's faults mean where its text was written by this package, and what to do.
MEANINGS = {
    12: "out of memory: take a smaller grid, or free some memory",
    22: "more than 65,536 tiles: give a larger --tile",
    32: "the system started no further thread: give fewer --workers",
    41: "the observer lies outside the grid: move it, or take a larger window",
    42: "the observer stands where there is no data: move it",
    43: "more than 1,024 observers: make several maps and add them",
    44: "an eye or the target height is above 1,000,000 units: give fewer --decimals",
    45: "the radius is not 1 to 8,192 cells",
    46: "the sink lies outside the grid: move it, or take a larger window",
    47: "the sink stands where there is no data, and water drains off there anyway: take it out",
    48: "more than 1,024 sinks: name fewer",
    51: "the heights could not be read: the pipe from relief-gis broke, so run it again",
    52: "the map could not be written: the pipe to relief-gis broke, so run it again",
    61: "the gauge lies outside the grid: move it, or take a larger window",
    62: "the gauge stands where there is no data: move it",
    63: "more than 1,024 gauges: name fewer",
}
UNEXPECTED = "relief-gis wrote what relief refuses: please report it, with the command"


class GisError(Exception):
    """Base of all errors of this package; `status` is the exit status of the command."""

    status = 2


class UsageError(GisError, ValueError):
    """An option or argument that has no meaning."""

    status = 1


class InputError(GisError, ValueError):
    """A raster, an array or a point of which no map can be made."""

    status = 2


class DeviceError(GisError, OSError):
    """A file that could not be read or written."""

    status = 4


class MissingError(GisError):
    """A program, or a part of it, that is not installed."""

    status = 5


class Cancelled(GisError):
    """The caller asked for the run to end."""

    status = 130


class ReliefError(GisError):
    """A refusal of the program `relief`.

    Attributes:
        number: the fault's number, or None where the program gave none.
        name: the fault's name, such as "SinkOutside", or the program's own words.
        place: the place of the cell, the observer, the sink or the gauge from 0, or None.
        status: the exit status of the program, 1 to 4.
    """

    def __init__(self, number: Optional[int], name: str, place: Optional[int], status: int,
                 subject: str = "") -> None:
        self.number = number
        self.name = name
        self.place = place
        self.status = status
        code = " ".join(str(part) for part in (number, name, place) if part is not None)
        meaning = MEANINGS.get(number, UNEXPECTED) if number is not None else ""
        super().__init__(": ".join(part for part in (f"relief: {code}", subject, meaning) if part))
