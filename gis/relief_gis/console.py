"""What the command writes to the terminal, and streams that are closed or full."""
from __future__ import annotations

import os
import shutil
import sys
from typing import IO, Optional

from .errors import DeviceError
from .program import Progress

NAME = "relief-gis"
MOST_BAR_CELLS = 40


class StreamError(DeviceError):
    """A line that could not be written to standard output or standard error."""


def open_streams() -> None:
    """Opens the null device in the place of standard streams that are closed.

    Else the next file that is opened would have the number of one, and GDAL's or the program's messages would go there.
    """
    for number in range(3):
        try:
            os.fstat(number)
        except OSError:
            os.open(os.devnull, os.O_RDWR)
    sys.stdout = sys.stdout or open(os.devnull, "w", encoding="utf-8")
    sys.stderr = sys.stderr or open(os.devnull, "w", encoding="utf-8")


def write(text: str, stream: Optional[IO[str]] = None) -> None:
    """Writes text to a stream, standard error if not given, at once.

    Raises:
        StreamError: the stream is full.
        SystemExit: nobody reads it any more, and nobody is to be told.
    """
    stream = stream or sys.stderr
    try:
        stream.write(text)
        stream.flush()
    except BrokenPipeError:
        _discard(stream)
        sys.exit(StreamError.status)
    except OSError as error:
        _discard(stream)
        raise StreamError(f"a line could not be written: {error.strerror}") from error


def say(line: str, name: str = NAME) -> None:
    """Writes a line for the user to standard error."""
    write(f"{name}: {line}\n")


def say_if_heard(line: str, name: str = NAME) -> None:
    """Says why a run ends, where there is a stream for it; the status tells the rest."""
    try:
        say(line, name)
    except StreamError:
        pass


def _discard(stream: IO[str]) -> None:
    """Sends what a stream still holds to the null device, so that Python's own end does not fail by it."""
    null = os.open(os.devnull, os.O_WRONLY)
    os.dup2(null, stream.fileno())
    os.close(null)


class Bar:
    """A bar for each stage on a terminal, written anew in place; elsewhere a line for each tenth that is reported."""

    def __init__(self, name: str) -> None:
        self.name = name
        self.is_terminal = sys.stderr.isatty()
        self.width = 0

    def __call__(self, step: Progress) -> None:
        label = f"{step.map}, stage {step.stage}"
        if not self.is_terminal:
            return self.say(f"{label}: {step.share:.0%}".replace("%", " %"))
        percent = f" {step.share:4.0%}"
        # One column is left free: a full line would begin a new one.
        most = shutil.get_terminal_size().columns - len(label) - len(percent) - 2
        cells = max(0, min(MOST_BAR_CELLS, most))
        done = round(step.share * cells)
        line = f"{label} {'#' * done}{'.' * (cells - done)}{percent}"
        write(f"\r{line:{self.width}}")
        self.width = len(line)

    def say(self, line: str) -> None:
        """Says a line in the place of the bar."""
        self.clear()
        write(f"{self.name}: {line}\n")

    def clear(self) -> None:
        """Takes the bar off the terminal."""
        if self.width:
            width, self.width = self.width, 0
            write(f"\r{'':{width}}\r")
