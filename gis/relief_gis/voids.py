"""Where a raster has data, and holes in it: one rule for NODATA, NaN, masks and alpha bands.

`relief-holes` is installed with this file alone, so it takes no other module of the package.
"""
from __future__ import annotations

import math
from dataclasses import dataclass
from typing import Callable, Iterator, List, Optional, Tuple, Union

import numpy as np

try:
    from osgeo import gdal
except ImportError:
    # Arrays take no GDAL, and rasters say what is missing.
    gdal = None

Window = Tuple[int, int, int, int]
Number = Union[int, float]
# Formats write a NODATA value with 15 digits or more, and one that is too great for a height often with fewer.
GREATEST_HEIGHT = 1e15
LAST_DIGITS, FEW_DIGITS = 1e-15, 1e-6
ForRows = Callable[[Callable[[slice], None], Tuple[int, ...]], List[None]]


def _at_once(work: Callable[[slice], None], shape: Tuple[int, ...]) -> List[None]:
    return [work(slice(0, shape[0]))]


def data_cells(dataset: gdal.Dataset, number: int, window: Window, values: np.ndarray,
               for_rows: ForRows = _at_once) -> np.ndarray:
    """Where a band has data: its value is neither NODATA nor NaN, and no mask or alpha band takes the cell out.

    Args:
        number: of the band, from 1.
        window: column, row, columns, rows that are read.
        values: (rows, cols), what the band has there.
        for_rows: calls a function with slices of all rows and returns its results, as `blocks.for_rows` by threads.

    Returns:
        (rows, cols) bool.
    """
    band = dataset.GetRasterBand(number)
    nodata = band.GetNoDataValue()
    valid = np.empty(values.shape, bool)

    def judge(rows: slice) -> None:
        valid[rows] = differs(values[rows], nodata)

    for_rows(judge, values.shape)
    # The mask that GDAL makes of NODATA takes out heights beside it too, doubles by the precision of 32 bits.
    masks = [band.GetMaskBand()] if has_own_mask(band) else []
    for mask in masks + [dataset.GetRasterBand(alpha) for alpha in alpha_bands(dataset)]:
        valid &= mask.ReadAsArray(*window) != 0
    return valid


def has_own_mask(band: gdal.Band) -> bool:
    """Whether a band, or its dataset, has a mask that is neither an alpha band nor comes from a NODATA value."""
    # GDAL takes an alpha band of bytes or of 16 bits for a mask, where there is no NODATA value, and of no other type.
    flags = band.GetMaskFlags()
    return flags == 0 or flags & (gdal.GMF_PER_DATASET | gdal.GMF_ALPHA) == gdal.GMF_PER_DATASET


def alpha_bands(dataset: gdal.Dataset) -> Tuple[int, ...]:
    """The numbers of the alpha bands of a dataset, of whatever type."""
    return tuple(number for number in range(1, dataset.RasterCount + 1)
                 if dataset.GetRasterBand(number).GetColorInterpretation() == gdal.GCI_AlphaBand)


def differs(values: np.ndarray, nodata: Optional[Number]) -> np.ndarray:
    """Where values are neither a NODATA value, as their type has it, nor NaN: bool."""
    kind = values.dtype
    if kind.kind != "f":
        return values != kind.type(nodata) if nodata is not None and fits(nodata, kind) else np.ones(values.shape, bool)
    if nodata is None or math.isnan(nodata):
        return ~np.isnan(values)
    first, last = _nodata_range(float(nodata), kind)
    return (values < first) | (values > last)


def _nodata_range(nodata: float, kind: np.dtype) -> Tuple[np.floating, np.floating]:
    """The least and the greatest float of a type that a finite or infinite NODATA value stands for."""
    if math.isinf(nodata):
        return kind.type(nodata), kind.type(nodata)
    reach = abs(nodata) * (FEW_DIGITS if abs(nodata) > GREATEST_HEIGHT else LAST_DIGITS)
    least, most = limits(kind)
    return kind.type(min(max(nodata - reach, least), most)), kind.type(max(min(nodata + reach, most), least))


def fits(value: Number, dtype: np.dtype) -> bool:
    """Whether a type has a value; of floats the nearest one stands for it."""
    least, most = limits(dtype)
    if dtype.kind == "f":
        return math.isnan(value) or least <= value <= most
    return math.isfinite(value) and value == int(value) and least <= value <= most


def limits(dtype: np.dtype) -> Tuple[Number, Number]:
    """The least and the greatest finite value of a type."""
    if dtype.kind in "iu":
        return int(np.iinfo(dtype).min), int(np.iinfo(dtype).max)
    return float(np.finfo(dtype).min), float(np.finfo(dtype).max)


@dataclass(frozen=True)
class Holes:
    """Holes inside the land.

    Attributes:
        shape: rows and columns of the raster.
        count: number of holes.
        cell_count: number of their cells.
        longest_side: the longest side of the box around a hole, in cells.
        runs, hole: their cells as runs within rows, and the place of the hole of each.
    """

    shape: Tuple[int, ...]
    count: int
    cell_count: int
    longest_side: int
    runs: _Runs
    hole: np.ndarray

    @property
    def cells(self) -> np.ndarray:
        """The cells of all holes, (rows, cols) bool."""
        steps = np.zeros((self.shape[0], self.shape[1] + 1), np.int8)
        steps[self.runs.row, self.runs.start] = 1
        steps[self.runs.row, self.runs.end] = -1
        return np.cumsum(steps, axis=1, out=steps)[:, :-1].astype(bool)

    def each(self) -> Iterator[Tuple[np.ndarray, np.ndarray]]:
        """The rows and the columns of the cells of each hole, in row order."""
        order = np.argsort(self.hole, kind="stable")
        ends = np.cumsum(np.bincount(self.hole, minlength=self.count))
        for part in np.split(order, ends[:-1]) if self.count else ():
            yield self.runs.cells(part)


@dataclass(frozen=True)
class _Runs:
    """Longest runs of empty cells within rows, in row order; `end` is behind the last cell."""

    row: np.ndarray
    start: np.ndarray
    end: np.ndarray

    def cells(self, chosen: np.ndarray) -> Tuple[np.ndarray, np.ndarray]:
        """The rows and the columns of the cells of some runs."""
        lengths = self.end[chosen] - self.start[chosen]
        within = np.arange(lengths.sum()) - np.repeat(np.cumsum(lengths) - lengths, lengths)
        return np.repeat(self.row[chosen], lengths), np.repeat(self.start[chosen], lengths) + within


def find_holes(empty: np.ndarray, outside: Optional[np.ndarray] = None) -> Holes:
    """Finds the regions of empty cells, joined by sides or corners, that do not touch the border.

    Args:
        empty: (rows, cols) bool, cells without data.
        outside: (rows, cols) bool, cells where the user wants no data; a region that touches one is no hole.
    """
    rows, cols = empty.shape
    runs = _runs_of(empty)
    labels = _components(len(runs.row), *_joins(runs, cols))
    is_open = (runs.row == 0) | (runs.row == rows - 1) | (runs.start == 0) | (runs.end == cols)
    if outside is not None:
        met = np.flatnonzero(empty & beside(outside))
        is_open[np.searchsorted(runs.row * cols + runs.start, met, "right") - 1] = True
    in_hole = ~np.isin(labels, labels[is_open])
    inner = _Runs(runs.row[in_hole], runs.start[in_hole], runs.end[in_hole])
    names, hole = np.unique(labels[in_hole], return_inverse=True)
    cell_count = int((inner.end - inner.start).sum())
    return Holes(empty.shape, len(names), cell_count, _longest_side(inner, hole, len(names)), inner, hole)


def beside(cells: np.ndarray, beyond: bool = False) -> np.ndarray:
    """The cells that are, or have among the eight around them, one of these; beyond the border all or none are."""
    return any_of_nine(np.pad(cells, 1, constant_values=beyond))


def any_of_nine(around: np.ndarray) -> np.ndarray:
    """Whether a cell or one of the eight around it is true, of all cells but those at the border."""
    wide = around[:, :-2] | around[:, 1:-1] | around[:, 2:]
    return wide[:-2] | wide[1:-1] | wide[2:]


def _runs_of(empty: np.ndarray) -> _Runs:
    cells = np.pad(empty, ((0, 0), (1, 1))).ravel()
    # A run begins and ends in turns, since a cell without a run stands between two rows.
    turns = np.flatnonzero(cells[1:] != cells[:-1])
    row, col = np.divmod(turns, empty.shape[1] + 2)
    return _Runs(row[::2], col[::2], col[1::2])


def _joins(runs: _Runs, cols: int) -> Tuple[np.ndarray, np.ndarray]:
    """Pairs of runs in neighbouring rows that touch, by side or corner."""
    width = cols + 1
    below = (runs.row + 1) * width
    first = np.searchsorted(runs.row * width + runs.end, below + runs.start, "left")
    last = np.searchsorted(runs.row * width + runs.start, below + runs.end, "right")
    counts = np.maximum(last - first, 0)
    upper = np.repeat(np.arange(len(runs.row)), counts)
    within = np.arange(len(upper)) - np.repeat(np.cumsum(counts) - counts, counts)
    return upper, np.repeat(first, counts) + within


def _components(count: int, one: np.ndarray, other: np.ndarray) -> np.ndarray:
    """The least number of each node's component, by hooking to the lesser label and halving the ways."""
    labels = np.arange(count)
    while True:
        least = np.minimum(labels[one], labels[other])
        np.minimum.at(labels, labels[one], least)
        np.minimum.at(labels, labels[other], least)
        labels = _roots(labels)
        if np.array_equal(labels[one], labels[other]):
            return labels


def _roots(labels: np.ndarray) -> np.ndarray:
    while not np.array_equal(labels, labels[labels]):
        labels = labels[labels]
    return labels


def _longest_side(runs: _Runs, hole: np.ndarray, count: int) -> int:
    if count == 0:
        return 0
    low = np.full((2, count), np.iinfo(np.int64).max)
    high = np.full((2, count), -1)
    for axis, (least, most) in enumerate(((runs.row, runs.row + 1), (runs.start, runs.end))):
        np.minimum.at(low[axis], hole, least)
        np.maximum.at(high[axis], hole, most)
    return int((high - low).max())
