"""What lies downstream of where the data ends: land beyond may drain in there, and no map can show it."""
from __future__ import annotations

from concurrent.futures import ThreadPoolExecutor
from fractions import Fraction
from typing import Dict, Iterator, List, Sequence, Tuple

import numpy as np

from .blocks import for_rows, row_blocks
from .making import NODATA_CODE, Place, edge_cells
from .units import counted, plain

# The maps of which it is told what lies downstream of a cut, and those of which a map of it can be made.
COUNTED_MAPS = ("accumulate", "area", "streams")
TOLD_MAPS = (*COUNTED_MAPS, "basins")
UNCERTAIN_MAPS = ("flow", *TOLD_MAPS, "catchments")
DESCRIPTION = "1: where the data ends, or downstream of it"

# Down and right of each code of directions.
STEPS = {1: (0, 1), 2: (1, 1), 4: (1, 0), 8: (1, -1), 16: (0, -1), 32: (-1, -1), 64: (-1, 0), 128: (-1, 1)}


def uncertain_cells(codes: np.ndarray, valid: np.ndarray) -> np.ndarray:
    """The cells that a flow path from an edge cell crosses, the edge cells themselves included.

    Their maps change where land beyond the data drains into it; TauDEM calls this edge contamination.

    Args:
        codes: (rows, cols) uint8, D8 directions as `relief flow` writes them.
        valid: (rows, cols) bool, where there is data.

    Returns:
        (rows, cols) bool.

    # Memory
    Some 4 bytes a cell.
    """
    # Each cell is met once, so a walk takes less time than numpy's rounds over all cells.
    found = bytearray(codes.size)
    offsets = offsets_of(codes.shape[1])
    flat = memoryview(np.ascontiguousarray(codes)).cast("B")
    for cell in _places(edge_cells(valid)):
        while not found[cell]:
            found[cell] = 1
            cell += offsets[flat[cell]]
    return np.frombuffer(found, bool).reshape(codes.shape)


def _places(cells: np.ndarray) -> Iterator[int]:
    """The places of cells, in row order."""
    for rows in row_blocks(cells.shape):
        yield from (np.flatnonzero(cells[rows]) + rows.start * cells.shape[1]).tolist()


def offsets_of(cols: int) -> List[int]:
    """How many places further, in row order, each code leads; 0 where a flow path ends."""
    offsets = [0] * 256
    for code, (down, right) in STEPS.items():
        offsets[code] = down * cols + right
    return offsets


def uncertain_map(cells: np.ndarray, valid: np.ndarray) -> np.ndarray:
    """Cells as a map of bytes: 1 in them, 0 elsewhere, NODATA_CODE where there is no data."""
    return np.where(valid, cells, np.uint8(NODATA_CODE))


def line_of(name: str, cells: np.ndarray, found: np.ndarray, cell_area: Fraction) -> str:
    """How many cells of a map are uncertain, and how much drains through one of them at most.

    Args:
        name: of the map.
        cells: (rows, cols) bool, those of `uncertain_cells`.
        found: (rows, cols), what the program wrote for the map.
        cell_area: in square units of the projection.
    """
    most = int(found.max(where=cells, initial=0))
    amount = f"{plain((most + 1) * cell_area)} square units" if name == "area" else f"{most:,} other cells"
    rest = f"up to {amount} drain through one of them, and land beyond may too"
    return (f"{counted(np.count_nonzero(cells), 'cell lies', 'cells lie')} where the data ends or downstream of it: "
            f"{rest if name in COUNTED_MAPS else 'land beyond may drain through them'}")


class GaugeCounts:
    """How many cells have each gauge's number, and how many of these lie where the data ends.

    Args:
        gauges: in their order.
        valid: (rows, cols) bool, where there is data.
    """

    def __init__(self, gauges: Sequence[Place], valid: np.ndarray) -> None:
        self.gauges = gauges
        self.counts = np.zeros((2, len(gauges) + 1), np.int64)
        # They are found while the program reads.
        pool = ThreadPoolExecutor(1)
        self.edges = pool.submit(self._edges_of, valid)
        pool.shutdown(wait=False)

    def _edges_of(self, valid: np.ndarray) -> np.ndarray:
        """Where the data ends, but for gauges: there its water runs out, and none runs in."""
        edges = edge_cells(valid)
        for gauge in self.gauges:
            edges[gauge.row, gauge.col] = False
        return edges

    def put(self, found: np.ndarray, row: int) -> None:
        """Counts cells of rows of the map, from a row on."""
        edges = self.edges.result()

        def count(rows: slice) -> np.ndarray:
            numbers = np.maximum(found[rows], 0)
            cut = numbers[edges[row + rows.start:row + rows.stop]]
            return np.stack([np.bincount(it.ravel(), minlength=self.counts.shape[1]) for it in (numbers, cut)])

        self.counts += sum(for_rows(count, found.shape))

    def lines(self) -> Iterator[str]:
        """What is told of the gauges."""
        sizes, cut = self.counts
        first: Dict[Tuple[int, int], int] = {}
        for number, gauge in enumerate(self.gauges, 1):
            same = first.setdefault((gauge.row, gauge.col), number)
            if same != number:
                yield f"{number}, {gauge.name}: lies in the cell of {same}, and no cell has its number"
                continue
            rest = f", {cut[number]:,} of them where the data ends" if cut[number] else ""
            yield f"{number}, {gauge.name}: {counted(sizes[number], 'cell drains', 'cells drain')} to it first{rest}"
        if cut[1:].any():
            yield "where the data ends, land beyond it may drain in, and the catchment is larger then"
