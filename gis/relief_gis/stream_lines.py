"""Streams as lines: a reach from each head or confluence to the next confluence, or to where the stream ends."""
from __future__ import annotations

from array import array
from dataclasses import dataclass
from typing import Iterator, List, Sequence

import numpy as np
from osgeo import ogr

from .blocks import row_blocks
from .edges import offsets_of
from .frame import Frame
from .layers import Feature, write_layer

FIELDS = (("number", int), ("below", int), ("cells", int), ("first_count", int), ("count", int), ("area", float),
          ("length", float))


def write_lines(path: str, counts: np.ndarray, codes: np.ndarray, threshold: int, frame: Frame) -> int:
    """Writes the reaches of streams as a GeoPackage of lines through the centres of cells; how many there are.

    Args:
        counts: (rows, cols), accumulations, below 0 where there is no data.
        codes: (rows, cols) uint8, D8 directions.
        threshold: more than so many other cells drain through a stream's cells.

    Raises:
        DeviceError, OSError: the file could not be written.
    """
    streams = _streams_of(counts, codes, threshold)
    reaches = list(_reaches_of(streams))
    write_layer(path, "streams", ogr.wkbLineString, FIELDS, _features(streams, reaches, counts, frame), frame)
    return len(reaches)


@dataclass(frozen=True)
class _Streams:
    """The cells of streams.

    Attributes:
        cells: (n,) int32, their places in row order.
        below: (n,) int32, of each where among them the one lies into which it drains; -1: no stream leads on.
        inflows: (n,) how many of them drain into each.
    """

    cells: np.ndarray
    below: np.ndarray
    inflows: np.ndarray


def _streams_of(counts: np.ndarray, codes: np.ndarray, threshold: int) -> _Streams:
    cols = counts.shape[1]
    cells = np.concatenate([(np.flatnonzero(counts[rows] > threshold) + rows.start * cols).astype(np.int32)
                            for rows in row_blocks(counts.shape)])
    steps = np.array(offsets_of(cols), np.int32)[codes.reshape(-1)[cells]]
    # A stream drains into a stream, whose count is greater.
    below = np.where(steps != 0, np.searchsorted(cells, cells + steps), -1).astype(np.int32)
    return _Streams(cells, below, np.bincount(below[below >= 0], minlength=cells.size))


def _reaches_of(streams: _Streams) -> Iterator["array[int]"]:
    """The cells of each reach, downstream, in row order of the first ones; the last one is often the next one's first.

    A cell from which no stream leads on is no reach: it has no length.
    """
    below, is_joint = memoryview(streams.below), memoryview(streams.inflows != 1)
    # Heads and confluences.
    for first in np.flatnonzero((streams.inflows != 1) & (streams.below >= 0)).tolist():
        reach = array("i", [first, below[first]])
        while below[reach[-1]] >= 0 and not is_joint[reach[-1]]:
            reach.append(below[reach[-1]])
        yield reach


def _features(streams: _Streams, reaches: Sequence["array[int]"], counts: np.ndarray,
              frame: Frame) -> Iterator[Feature]:
    numbers = {reach[0]: number for number, reach in enumerate(reaches, 1)}
    flat = counts.reshape(-1)
    for number, reach in enumerate(reaches, 1):
        following = numbers.get(reach[-1])
        cells: List[int] = streams.cells[reach].tolist()
        # The cell of a confluence is the next reach's own, or no reach's where no stream leads on.
        own = cells[:-1] if streams.inflows[reach[-1]] > 1 else cells
        count = int(flat[own[-1]])
        line = ogr.Geometry(ogr.wkbLineString)
        for cell in cells:
            line.AddPoint_2D(*frame.centre(*divmod(cell, frame.cols)))
        yield line, (number, following, len(own), int(flat[own[0]]), count, float((count + 1) * frame.cell**2),
                     line.Length())
