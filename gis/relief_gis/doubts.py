"""What makes a raster doubtful: heights that look as if they meant that there is no data."""
from __future__ import annotations

from typing import Iterator

import numpy as np

from . import cures
from .making import edge_cells
from .raster import Terrain
from .units import counted

# Numbers that rasters use for "no data", and that are no heights on land.
USUAL_NODATA = (-32768, -32767, -9999, -99999, 9999, 32767, 65535, 99999)
# Tools fill corners with 0. So many cells of it where the data ends, such a share of all, and so many times as many as
# have the heights next to it, 1 and -1, are no chance.
MANY_CELLS = 8
MANY_SHARE = 0.02
MANY_TIMES = 3


def doubtful_heights(terrain: Terrain) -> Iterator[str]:
    """Lines on heights that often mean no data: usual numbers for it, and a rim of exact 0."""
    ends = terrain.ends
    for number in sorted(set(ends or ())):
        if number in USUAL_NODATA:
            yield _line(terrain, number, "")
    if ends is None or not ends[0] <= 0 <= ends[1]:
        return
    rim = terrain.values[edge_cells(terrain.valid)]
    zeros, next_to_it = np.count_nonzero(rim == 0), np.count_nonzero(np.isin(rim, (-1, 1)))
    if zeros >= max(MANY_CELLS, MANY_SHARE * rim.size, MANY_TIMES * next_to_it):
        yield _line(terrain, 0, f", {zeros:,} of them where the data ends")


def _line(terrain: Terrain, number: float, where: str) -> str:
    count = np.count_nonzero((terrain.values == number) & terrain.valid)
    return (f"{counted(count, 'cell has', 'cells have')} the height {number:g}{where}, which often means no data, and "
            f"{'is' if count == 1 else 'are'} taken for terrain: if it does, {_naming(terrain, number)}")


def _naming(terrain: Terrain, number: float) -> str:
    """The commands that name a number as NODATA."""
    if terrain.nodata is None:
        return cures.name_nodata(terrain.source, number)
    scaling = {"scale": terrain.scale, "offset": terrain.offset, "units": terrain.unit}
    return cures.add_nodata(terrain.source, terrain.nodata, number, scaling)
