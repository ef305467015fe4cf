"""A map on its way to the disk: written in memory while the program is at work, and kept when all is whole."""
from __future__ import annotations

import os
from contextlib import ExitStack
from types import TracebackType
from typing import TYPE_CHECKING, Callable, Dict, Optional, Sequence, Type

import numpy as np

from . import edges, styles
from .blocks import Behind
from .geotiff import GeoTiff, remove_sidecars, write_geotiff
from .grid_text import STRIP
from .heights import Heights
from .making import NODATA_CODE
from .raster import Terrain
from .results import result_of
from .targets import beside, has_foreign_style, style_path

if TYPE_CHECKING:
    from .job import Job

DESCRIPTIONS = {
    "fill": "filled height", "flow": "D8 direction: E 1, SE 2, S 4, SW 8, W 16, NW 32, N 64, NE 128, outlet 0",
    "accumulate": "number of other cells that drain through the cell", "basins": "number of the outlet",
    "catchments": "number of the gauge, 0 none", "view": "number of observers that see the cell",
    "rise": "least height above the ground at which a target is seen",
    "depth": "filled height less height", "area": "area that drains through the cell, its own with it",
    "streams": "1: a stream",
}

# Differences of other values take more time to compress and more bytes: of areas each half as much again.
SMOOTH = ("fill", "rise")

Say = Callable[[str], None]


def write_text(path: str, text: str) -> None:
    """Writes a file of text."""
    with open(path, "w", encoding="utf-8") as file:
        file.write(text)


class Draft:
    """A job's map as far as it is written.

    Args:
        terrain: of which its values may be left out.
        made_by: the map of the program from which the job's map comes.
        version: that of the program.
        bands: the names of its bands; None: it has one.
    """

    def __init__(self, job: Job, terrain: Terrain, heights: Heights, made_by: str, version: str,
                 bands: Optional[Sequence[str]] = None) -> None:
        self.job, self.terrain, self.heights = job, terrain, heights
        self.metadata = {"TIFFTAG_SOFTWARE": f"relief {version}, relief-gis", "RELIEF_VERSION": version,
                         "RELIEF_COMMAND": job.command or f"relief-gis {job.map}",
                         "RELIEF_DECIMALS": str(heights.decimals), "RELIEF_MAP": made_by}
        self.bands = [DESCRIPTIONS[job.map]] if bands is None else bands
        # Further files: their names, and what writes each under another name.
        self.also: Dict[str, Callable[[str], None]] = {}
        self.file: Optional[GeoTiff] = None
        self.puts: Optional[Behind] = None
        self.most, self.written = 0.0, 0
        self.numbers = styles.Numbers()
        self.style: Optional[str] = None
        self.keeps_style = False
        self.threshold = job.threshold if isinstance(job.threshold, int) else 0
        # Small basins are known when all are.
        self.result = None if job.least is not None else result_of(job.map, terrain, heights, None, self.threshold)
        if self.result is not None:
            self._begin()

    def _begin(self) -> None:
        result = self.result
        assert result is not None
        self.file = GeoTiff(result.dtype, self.terrain.frame, result.nodata, result.unit,
                            self.bands, self.metadata, styles.color_table(self.job.map),
                            is_smooth=self.job.map in SMOOTH)
        # A strip is compressed while the next one is worked out.
        self.puts = Behind(self.file.put)

    @property
    def needs_all(self) -> bool:
        """Whether the map as a whole has to be kept, for its type or for the size of its basins."""
        return self.result is None

    def put(self, found: np.ndarray, row: int = 0, band: int = 1) -> None:
        """Writes rows of what the program wrote, from a row on, as soon as they are there."""
        if self.result is None or self.puts is None:
            return
        for first in range(0, len(found), STRIP):
            array = self.result.rows(found[first:first + STRIP], row + first)
            self.puts(row + first, array, band)
            self.written = max(self.written, row + first + len(array))
            if styles.needs_most(self.job.map):
                self.most = max(self.most, float(array.max()))
            if styles.needs_numbers(self.job.map):
                self.numbers.add(array)

    def end(self, found: np.ndarray) -> None:
        """Writes the rows that are not yet written: all, where a map has to be known as a whole before."""
        if self.result is None:
            self.result = result_of(self.job.map, self.terrain, self.heights, found, self.threshold)
            self._begin()
        self.put(found[self.written:], self.written)

    def write(self, names: Callable[[str], str]) -> None:
        """Writes the map, its style and further files, each under another name."""
        assert self.file is not None and self.puts is not None
        self.puts.finish()
        self.style = styles.style(self.job.map, self.numbers, self.most, self.heights.decimals)
        self.keeps_style = has_foreign_style(self.job.target)
        self.file.save(names(self.job.target))
        if self.style is not None and not self.keeps_style:
            write_text(names(style_path(self.job.target)), self.style)
        for path, write in self.also.items():
            write(names(path))

    def settle(self, say: Say) -> None:
        """Removes what lay beside an older map, once the map has its name."""
        target = self.job.target
        for path in filter(None, (target, self.job.uncertain)):
            remove_sidecars(path)
        if self.keeps_style:
            say(f"{style_path(target)} is no style of relief-gis, or write-protected, and was left alone")
        elif self.style is None and os.path.exists(style_path(target)):
            os.remove(style_path(target))

    def add_uncertain(self, path: str, cells: np.ndarray) -> None:
        """Adds the map of cells that are downstream of where the data ends."""
        def write(name: str) -> None:
            write_geotiff(name, edges.uncertain_map(cells, self.heights.valid), self.terrain.frame, NODATA_CODE,
                          edges.DESCRIPTION, {**self.metadata, "RELIEF_MAP": "uncertain"},
                          styles.color_table("uncertain"))

        self.also[path] = write

    def __enter__(self) -> Draft:
        return self

    def __exit__(self, kind: Optional[Type[BaseException]], error: Optional[BaseException],
                 trace: Optional[TracebackType]) -> None:
        if self.file is not None and self.puts is not None:
            self.puts.__exit__(kind)
            self.file.close()


def save_drafts(drafts: Sequence[Draft], say: Say) -> None:
    """Writes maps, their styles and further files beside their names, and renames them when all are written."""
    with ExitStack() as stack:
        for draft in drafts:
            draft.write(stack.enter_context(beside(draft.job.target)))
    for draft in drafts:
        draft.settle(say)
