"""Rasters of heights, as GDAL opens them, with what `relief` cannot see refused."""
from __future__ import annotations

import math
import os
from concurrent.futures import ThreadPoolExecutor
from dataclasses import dataclass
from fractions import Fraction
from functools import cached_property
from typing import Any, Optional, Sequence, Tuple, cast

import numpy as np
from osgeo import gdal, osr

from . import cures
from .blocks import MOST_THREADS, PROCESSORS, data_ends, for_rows, row_blocks
from .errors import DeviceError, InputError, UsageError
from .frame import Bounds, Frame, Geotransform, Window, reference_of
from .gdal_errors import raised_errors
from .ground import GroundCell, conformal_code, degrees_of, ground_cell, worst_cell
from .heights import MOST_SIDE
from .units import plain
from .voids import alpha_bands, data_cells, has_own_mask

# How far the last column may drift from its place where cells are a little oblong by rounding, in cells.
MOST_DRIFT = Fraction(1, 100)
# How many rows are read at once, at least.
ROWS_AT_ONCE = 512


@dataclass(frozen=True)
class Terrain:
    """A raster of heights as read.

    Attributes:
        values: (rows, cols), of the raster's own type.
        valid: (rows, cols) bool, where there is data.
        nodata: the band's NODATA value, or None.
        scale, offset: heights are values * scale + offset.
        unit: the unit of heights that the band names, or "".
        source: the raster as commands of GDAL read it.
        is_part: whether a window or bounds leave cells of the raster out.
    """

    values: np.ndarray
    valid: np.ndarray
    nodata: Optional[float]
    scale: float
    offset: float
    unit: str
    frame: Frame
    source: cures.Source
    is_part: bool = False

    @cached_property
    def ends(self) -> Optional[Tuple[Any, Any]]:
        """The least and the greatest value where there is data; None: there is none."""
        return data_ends(self.values, self.valid)


@dataclass(frozen=True)
class Raster:
    """A raster that is open, of which all or a part is to be read.

    Attributes:
        dataset: what GDAL reads.
        source: the raster as commands of GDAL read it.
        whole: where all of it lies.
        window: the part to be read: column, row, columns, rows.
    """

    dataset: gdal.Dataset
    source: cures.Source
    whole: Frame
    window: Window

    @property
    def frame(self) -> Frame:
        """Where the part to be read lies."""
        return self.whole.part(self.window)

    @property
    def unit(self) -> str:
        """The unit of heights that the band names, or ""."""
        return self.dataset.GetRasterBand(self.source.band).GetUnitType() or ""

    @property
    def is_wide(self) -> bool:
        """Whether the part to be read is larger than what the program takes."""
        return max(self.window[2:]) > MOST_SIDE

    def size_words(self) -> str:
        """How many columns and rows the part to be read has, and how many it may have."""
        return _size_words(self.window, self.source)

    def coarsening(self, longest: int) -> str:
        """The command that makes cells so large that a side of so many of them is not too long."""
        return _coarsening(self.whole, self.source, longest)

    def has_data(self, row: int, col: int) -> bool:
        """Whether a cell of the part to be read has data."""
        left, top = self.window[:2]
        try:
            with raised_errors():
                return bool(_read(self.dataset, self.source, self.whole, (left + col, top + row, 1, 1)).valid[0, 0])
        except RuntimeError as error:
            raise DeviceError(f"{self.source.path} could not be read: {error}") from error

    def read(self, part: Optional[Window] = None, cure: str = "") -> Terrain:
        """Reads heights: those of a window within the part to be read, or all of it.

        Args:
            cure: what else to do where cells are too many, and a comma.

        Raises:
            InputError: cells are too many, or not square on the ground.
            DeviceError: GDAL could not read them.
        """
        left, top = self.window[:2]
        window = self.window if part is None else (left + part[0], top + part[1], part[2], part[3])
        try:
            with raised_errors():
                _check_size(window, self.whole, self.source, cure)
                _check_ground(self.whole.part(window), self.source)
                return _read(self.dataset, self.source, self.whole, window)
        except (RuntimeError, MemoryError) as error:
            raise DeviceError(f"{self.source.path} could not be read: {error}") from error


def open_raster(path: str, band: int = 1, window: Optional[Window] = None, bounds: Optional[Bounds] = None,
                projection: Optional[str] = None, needs_projection: bool = True) -> Raster:
    """Opens a raster of heights, and finds which part of it is to be read.

    Args:
        path: what GDAL opens.
        band: from 1.
        window: column, row, columns, rows.
        bounds: west, south, east, north; all cells that they touch are read.
        projection: that of a raster that names none.
        needs_projection: refuse a raster without projection.

    Raises:
        UsageError: the band, window, bounds or projection is none.
        InputError: cells are turned, not square, in degrees or not placed.
        DeviceError: GDAL could not read it.
    """
    try:
        with raised_errors():
            dataset = gdal.OpenEx(path, gdal.OF_RASTER)
            _check_band(dataset, path, band)
            source = _source_of(dataset, path, band, projection)
            whole = _frame_of(dataset, source, projection)
            _check_frame(whole, source, needs_projection)
            return Raster(dataset, source, whole, _window_of(whole, window, bounds))
    except (RuntimeError, MemoryError) as error:
        raise DeviceError(f"{path} could not be read: {error}") from error


def _check_band(dataset: gdal.Dataset, path: str, band: int) -> None:
    if not 1 <= band <= dataset.RasterCount:
        raise UsageError(f"{path} has no band {band}: it has {dataset.RasterCount}")
    if band in alpha_bands(dataset):
        raise InputError(f"band {band} of {path} is an alpha band, which says where there is data and has no heights: "
                         "give that of the heights by --band")


def _source_of(dataset: gdal.Dataset, path: str, number: int, projection: Optional[str]) -> cures.Source:
    band, alphas = dataset.GetRasterBand(number), alpha_bands(dataset)
    masks = ([f"mask,{number}"] if has_own_mask(band) else []) + [str(alpha) for alpha in alphas]
    is_last = masks == [str(dataset.RasterCount)]
    kind = cures.SIGNED if _is_signed(band) else gdal.GetDataTypeName(band.DataType)
    given = "" if dataset.GetProjection() else projection or ""
    return cures.Source(path, kind, number, tuple(masks), is_last, given)


def _frame_of(dataset: gdal.Dataset, source: cures.Source, projection: Optional[str]) -> Frame:
    placed = dataset.GetGeoTransform(can_return_null=True)
    if placed is None:
        raise InputError(f"{source.path} is not placed: it has no geotransform")
    words = dataset.GetProjection()
    if words and projection is not None:
        raise UsageError(f"{source.path} has a projection already: leave --projection out, or project it first: "
                         f"{cures.reproject(source, projection)}")
    if projection is not None:
        words = reference_of(projection).ExportToWkt()
    is_point = dataset.GetMetadataItem("AREA_OR_POINT") == "Point"
    return Frame(cast(Geotransform, tuple(placed)), words, dataset.RasterXSize, dataset.RasterYSize, is_point)


def _check_frame(frame: Frame, source: cures.Source, needs_projection: bool) -> None:
    _, across, turn, _, tilt, down = frame.geotransform
    reference = frame.spatial_reference()
    if not all(map(math.isfinite, frame.geotransform)):
        raise InputError(f"{source.path} is not placed: its geotransform is {frame.geotransform}")
    if reference is None and needs_projection:
        raise InputError(f"{source.path} names no projection: give it by --projection EPSG:NUMBER, "
                         "or --no-projection if x and y are in one unit of length")
    if reference is not None and (reference.IsGeographic() or reference.IsGeocentric()):
        raise InputError(f"{source.path} is in degrees, and cells of degrees are not square on the ground: "
                         f"project it first: {_projecting(reference, frame, source)[1]}")
    if turn != 0 or tilt != 0:
        raise InputError(f"{source.path} is turned: its rows do not run from west to east. Lay it straight first: "
                         f"{cures.lay_straight(source)}")
    if across <= 0 or down >= 0:
        raise InputError(f"{source.path} runs from south to north or from east to west. Turn it over first: "
                         f"{_turning_over(frame, source)}")
    wide, high = frame.across, -frame.down
    if abs(wide - high) * max(frame.cols, frame.rows) > MOST_DRIFT * wide:
        raise InputError(f"{source.path} has cells of {plain(wide)} by {plain(high)}, which are not square: make them "
                         f"so first: {cures.make_square(source, min(wide, high))}")


def _turning_over(frame: Frame, source: cures.Source) -> str:
    x, y = frame.corner
    west, east = sorted((x, x + frame.cols * frame.across))
    south, north = sorted((y, y + frame.rows * frame.down))
    return cures.turn_over(source, (west, south, east, north), (abs(frame.across), abs(frame.down)))


def _projecting(reference: osr.SpatialReference, frame: Frame, source: cures.Source) -> Tuple[str, str]:
    """A projection in which the raster's cells are square on the ground, by its name, and the command that projects."""
    middle = _at(frame, 0.5, 0.5)
    place = degrees_of(reference, middle)
    if place is None:
        raise InputError(f"{source.path} lies off the earth by its projection: give the right one: "
                         f"{cures.name_projection(source)}")
    code, name = conformal_code(*place)
    _, across, turn, _, tilt, down = frame.geotransform
    cell = ground_cell(reference, middle, math.hypot(across, tilt), math.hypot(turn, down))
    return f"{name}, EPSG:{code}", cures.project(source, code, max(cell.wide, cell.high))


def _at(frame: Frame, right: float, below: float) -> Tuple[float, float]:
    """The coordinates of the centre of a cell by its place, 0 to 1, between the first and the last."""
    west, across, turn, north, tilt, down = frame.geotransform
    col, row = 0.5 + right * (frame.cols - 1), 0.5 + below * (frame.rows - 1)
    return west + col * across + row * turn, north + col * tilt + row * down


def _check_ground(frame: Frame, source: cures.Source) -> None:
    """Refuses cells that are not square on the ground, at the four corners and in the middle."""
    reference = frame.spatial_reference()
    if reference is None or not reference.IsProjected():
        return
    centres = [_at(frame, right, below) for right, below in ((0, 0), (1, 0), (0, 1), (1, 1), (0.5, 0.5))]
    worst = worst_cell(reference, centres, frame.geotransform[1], frame.geotransform[5])
    if not worst.is_square:
        name, command = _projecting(reference, frame, source)
        raise InputError(f"{source.path} has cells that are not square on the ground: {_ground_words(worst)}. Project "
                         f"it to {name}, first: {command}")


def _ground_words(cell: GroundCell) -> str:
    if not math.isfinite(cell.ratio):
        return "some lie off the earth"
    return (f"{cell.wide:.4g} by {cell.high:.4g} m, with diagonals of {cell.falling:.4g} and {cell.rising:.4g} m, "
            "where they are worst")


def _window_of(frame: Frame, window: Optional[Window], bounds: Optional[Bounds]) -> Window:
    if bounds is not None:
        west, south, east, north = bounds
        left, top = max(math.floor(frame.columns_to(west)), 0), max(math.floor(frame.rows_to(north)), 0)
        right, bottom = math.ceil(frame.columns_to(east)), math.ceil(frame.rows_to(south))
        window = left, top, min(right, frame.cols) - left, min(bottom, frame.rows) - top
        if window[2] < 1 or window[3] < 1:
            raise UsageError("--bounds lie outside the raster: give WEST,SOUTH,EAST,NORTH in its projection")
    if window is None:
        return 0, 0, frame.cols, frame.rows
    left, top, cols, rows = window
    if min(left, top) < 0 or min(cols, rows) < 1 or left + cols > frame.cols or top + rows > frame.rows:
        raise UsageError(f"--window {left},{top},{cols},{rows} is not within {frame.cols} columns and "
                         f"{frame.rows} rows")
    return window


def _check_size(window: Window, frame: Frame, source: cures.Source, cure: str) -> None:
    _, _, cols, rows = window
    longest = max(cols, rows)
    if longest > MOST_SIDE:
        raise InputError(f"{_size_words(window, source)}: cut a part out by --window COL,ROW,COLS,ROWS or --bounds "
                         f"WEST,SOUTH,EAST,NORTH, with a margin round the catchment, {cure}or make the cells larger: "
                         f"{_coarsening(frame, source, longest)}")


def _size_words(window: Window, source: cures.Source) -> str:
    return f"{source.path} has {window[2]:,} columns and {window[3]:,} rows, and {MOST_SIDE:,} of each is the most"


def _coarsening(frame: Frame, source: cures.Source, longest: int) -> str:
    """The command that makes cells so large that a side of so many of them is not too long."""
    return cures.coarsen(source, frame.cell, -(-longest // MOST_SIDE))


def _read(dataset: gdal.Dataset, source: cures.Source, whole: Frame, window: Window) -> Terrain:
    band = dataset.GetRasterBand(source.band)
    values = _signed(band, _values_of(dataset, source, window))
    if values.dtype.kind not in "iuf":
        raise InputError(f"heights of type {values.dtype} are neither integers nor floats")
    valid = data_cells(dataset, source.band, window, values, for_rows)
    scale, offset = band.GetScale(), band.GetOffset()
    is_part = window != (0, 0, whole.cols, whole.rows)
    return Terrain(values, valid, band.GetNoDataValue(), 1.0 if scale is None else scale, offset or 0.0,
                   band.GetUnitType() or "", whole.part(window), source, is_part)


def _values_of(dataset: gdal.Dataset, source: cures.Source, window: Window) -> np.ndarray:
    """What a band has in a window."""
    left, top, cols, rows = window
    band = dataset.GetRasterBand(source.band)
    values = np.empty((rows, cols), band.ReadAsArray(left, top, 1, 1).dtype)
    height = band.GetBlockSize()[1]
    step = -(-ROWS_AT_ONCE // height) * height
    # Blocks end at multiples of their height.
    firsts = [0, *range(step - top % height, rows, step)] if rows > step else [0]
    parts = [(first, values[first:after]) for first, after in zip(firsts, [*firsts[1:], rows])]

    def read(share: Sequence[Tuple[int, np.ndarray]], own: gdal.Dataset) -> None:
        with raised_errors():
            chosen = own.GetRasterBand(source.band)
            for first, part in share:
                chosen.ReadAsArray(left, top + first, cols, len(part), buf_obj=part)
                # Blocks that GDAL keeps would need as much memory as the values.
                chosen.FlushCache()

    # A dataset is read by one thread at a time, and files of GeoTIFF are opened again for others.
    most = min(PROCESSORS, MOST_THREADS, len(parts))
    count = most if dataset.GetDriver().ShortName == "GTiff" and os.path.isfile(source.path) else 1
    shares = [parts[len(parts) * at // count:len(parts) * (at + 1) // count] for at in range(count)]
    datasets = [dataset, *(gdal.OpenEx(source.path, gdal.OF_RASTER) for _ in shares[1:])]
    with ThreadPoolExecutor(count) as pool:
        list(pool.map(read, shares, datasets))
    return values


def _is_signed(band: gdal.Band) -> bool:
    """Whether a band has bytes with a sign, which before version 3.7 are a word of metadata."""
    return band.GetMetadataItem("PIXELTYPE", "IMAGE_STRUCTURE") == cures.SIGNED


def _signed(band: gdal.Band, values: np.ndarray) -> np.ndarray:
    """Values of a type that GDAL writes as it reads it."""
    if values.dtype == np.uint8 and _is_signed(band):
        values = values.view(np.int8)
    return values.astype(np.int16) if values.dtype == np.int8 else values


def fill_holes(values: np.ndarray, valid: np.ndarray, holes: np.ndarray, reach: int) -> None:
    """Interpolates the cells of holes from the data around them, by GDAL; other cells stay as they are.

    Args:
        values: (rows, cols) integers or floats, which are changed.
        valid, holes: (rows, cols) bool.
        reach: how far GDAL looks for data, in cells: further than the holes are wide.
    """
    rows, cols = values.shape
    # GDAL has a copy of the heights: of 32 bits where these have all of them.
    is_narrow = values.dtype == np.float32 or values.dtype.itemsize < 4
    with raised_errors():
        memory = gdal.GetDriverByName("MEM")
        heights, mask = (memory.Create("", cols, rows, 1, kind)
                         for kind in (gdal.GDT_Float32 if is_narrow else gdal.GDT_Float64, gdal.GDT_Byte))
        for part in row_blocks(values.shape):
            known = np.where(valid[part], values[part], 0).astype(np.float32 if is_narrow else np.float64)
            heights.WriteArray(known, 0, part.start)
            mask.WriteArray(valid[part].astype(np.uint8), 0, part.start)
        gdal.FillNodata(heights.GetRasterBand(1), mask.GetRasterBand(1), reach, 0)
        for part in row_blocks(values.shape):
            filled = heights.ReadAsArray(0, part.start, cols, part.stop - part.start)
            filled = np.rint(filled) if values.dtype.kind in "iu" else filled
            values[part][holes[part]] = filled[holes[part]].astype(values.dtype)
