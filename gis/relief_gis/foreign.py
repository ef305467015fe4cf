"""Maps of other programs against the definition: which cells differ, and how."""
from __future__ import annotations

from typing import Dict, Tuple

import numpy as np

from .blocks import row_blocks
from .edges import STEPS

# The directions of other programs from 1 on, or 0, as they stand in their own order; each code of ours by theirs.
CODES: Dict[str, Dict[int, int]] = {
    "arcgis": {code: code for code in STEPS},
    "grass": dict(zip(range(1, 9), (128, 64, 32, 16, 8, 4, 2, 1))),
    "saga": dict(zip(range(8), (64, 128, 1, 2, 4, 8, 16, 32))),
    "taudem": dict(zip(range(1, 9), (1, 128, 64, 32, 16, 8, 4, 2))),
    "whitebox": dict(zip((1, 2, 4, 8, 16, 32, 64, 128), (128, 1, 2, 4, 8, 16, 32, 64))),
    # Of GRASS's r.fill.dir.
    "degrees": dict(zip(range(45, 361, 45), (128, 64, 32, 16, 8, 4, 2, 1))),
    "agnps": dict(zip(range(1, 9), (64, 128, 1, 2, 4, 8, 16, 32))),
}
# What stands for a cell that drains nowhere.
OUTLETS = {"arcgis": (0,), "grass": (0,), "saga": (-1, 255), "taudem": (0, -1), "whitebox": (0,), "degrees": (0,),
           "agnps": (0,)}
# Classes of directions, as `--out` has them.
SAME, EQUAL, NEITHER, NO_CODE, ENDLESS = range(5)
# Differences of squares that floats tell for sure, as a share of them.
SURE = 1e-12


def directions_of(values: np.ndarray, has_data: np.ndarray, kind: str) -> Tuple[np.ndarray, np.ndarray]:
    """Directions by our codes, 0 where water leaves the data, and where numbers are no codes.

    Args:
        values: (rows, cols), another program's directions.
        has_data: (rows, cols) bool, the cells that are compared.
        kind: a key of CODES.

    Returns:
        (rows, cols) uint8, and (rows, cols) bool.
    """
    codes = np.zeros(values.shape, np.uint8)
    # GRASS gives a minus to cells that drain out of the region.
    numbers = np.abs(values) if kind == "grass" else values
    is_known = np.isin(numbers, OUTLETS[kind])
    for theirs, ours in CODES[kind].items():
        codes[numbers == theirs] = ours
        is_known |= numbers == theirs
    around = np.pad(has_data, 1)
    for code, (down, right) in STEPS.items():
        beside = around[1 + down:around.shape[0] - 1 + down, 1 + right:around.shape[1] - 1 + right]
        # Where the data ends water leaves it, whichever way.
        codes[(codes == code) & ~beside] = 0
    codes[~has_data] = 0
    return codes, has_data & ~is_known


def classes_of(theirs: np.ndarray, unknown: np.ndarray, ours: np.ndarray, filled: np.ndarray, valid: np.ndarray,
               ends: np.ndarray) -> np.ndarray:
    """The class of each direction: ours, another of equals, or neither; whether its path has no end counts first.

    Args:
        theirs: (rows, cols) uint8, by our codes; unknown: where a number is no code.
        ours: (rows, cols) uint8; filled: (rows, cols), filled heights in units.
        ends: (rows, cols) bool, end cells: where the data ends, and sinks.

    Returns:
        (rows, cols) uint8.
    """
    found = np.where(theirs == ours, SAME, NEITHER).astype(np.uint8)
    # A code is a bit, so those of equals stand in one byte.
    found[(found == NEITHER) & (best_ways(ours, filled, valid, ends) & theirs != 0)] = EQUAL
    found[endless(theirs)] = ENDLESS
    found[unknown] = NO_CODE
    return found


def best_ways(ours: np.ndarray, filled: np.ndarray, valid: np.ndarray, ends: np.ndarray) -> np.ndarray:
    """The codes of all steepest ways of a cell, or of all shortest ways over a flat, as the bits of a byte.

    # Memory
    Some 40 bytes a cell.
    """
    straight, straight_ways = _greatest_drops(filled, valid, (1, 4, 16, 64))
    diagonal, diagonal_ways = _greatest_drops(filled, valid, (2, 8, 32, 128))
    ways = np.where(_is_steeper(straight, diagonal), straight_ways, diagonal_ways)
    is_flat = valid & (np.maximum(straight, diagonal) == 0)
    ways[is_flat] = 0
    flats = is_flat & ~ends
    return ways | _ways_over_flats(ours, filled, valid, flats)


def _beside(array: np.ndarray, code: int) -> Tuple[np.ndarray, np.ndarray]:
    """The part of an array that has a neighbour by a code, and the neighbours."""
    down, right = STEPS[code]
    rows, cols = array.shape
    own = array[max(-down, 0):rows - max(down, 0), max(-right, 0):cols - max(right, 0)]
    return own, array[max(down, 0):rows + min(down, 0), max(right, 0):cols + min(right, 0)]


def _greatest_drops(filled: np.ndarray, valid: np.ndarray, codes: Tuple[int, ...]) -> Tuple[np.ndarray, np.ndarray]:
    """The greatest drop to one of some neighbours, at least 0, and the codes of all that have it, as bits."""
    drops, ways = np.zeros(filled.shape, np.int64), np.zeros(filled.shape, np.uint8)
    for code in codes:
        most, bits = _beside(drops, code)[0], _beside(ways, code)[0]
        own, other = _beside(filled, code)
        has_data = np.logical_and(*_beside(valid, code))
        drop = np.where(has_data, own.astype(np.int64) - other, 0)
        bits[(drop == most) & (drop > 0)] |= np.uint8(code)
        bits[drop > most] = code
        np.maximum(most, drop, out=most)
    return drops, ways


def _is_steeper(straight: np.ndarray, diagonal: np.ndarray) -> np.ndarray:
    """Whether twice the square of a drop is greater than the square of another one."""
    one, other = 2.0 * straight.astype(np.float64) ** 2, diagonal.astype(np.float64) ** 2
    steeper = one > other
    for place in zip(*np.nonzero((np.abs(one - other) <= SURE * one) & (straight > 0))):
        steeper[place] = 2 * int(straight[place]) ** 2 > int(diagonal[place]) ** 2
    return steeper


def _ways_over_flats(ours: np.ndarray, filled: np.ndarray, valid: np.ndarray, flats: np.ndarray) -> np.ndarray:
    """The codes of all neighbours of equal height with one step fewer, as bits, of the cells of flats."""
    steps = _steps(ours, flats)
    ways = np.zeros(ours.shape, np.uint8)
    for code in STEPS:
        bits, is_flat = _beside(ways, code)[0], _beside(flats, code)[0]
        (own, other), (here, there) = _beside(filled, code), _beside(steps, code)
        has_data = np.logical_and(*_beside(valid, code))
        bits[is_flat & has_data & (own == other) & (there == here - 1)] |= np.uint8(code)
    return ways


def _steps(ours: np.ndarray, flats: np.ndarray) -> np.ndarray:
    """The steps of each cell: how far our directions lead over a flat."""
    ways = targets_of(np.where(flats, ours, 0))
    steps = flats.astype(np.int32)
    while True:
        more = steps.reshape(-1)[ways]
        if not more.any():
            return steps
        steps += more
        ways = further(ways)


def targets_of(codes: np.ndarray) -> np.ndarray:
    """The place to which each cell drains, in row order; its own where its flow path ends."""
    rows, cols = codes.shape
    offsets = np.zeros(256, np.int32)
    for code, (down, right) in STEPS.items():
        offsets[code] = down * cols + right
    ways = np.arange(rows * cols, dtype=np.int32).reshape(rows, cols)
    for block in row_blocks(codes.shape):
        ways[block] += offsets[codes[block]]
    return ways


def further(ways: np.ndarray) -> np.ndarray:
    """The ways that lead twice as far."""
    longer, flat = np.empty_like(ways), ways.reshape(-1)
    for block in row_blocks(ways.shape):
        np.take(flat, ways[block], out=longer[block])
    return longer


def endless(codes: np.ndarray) -> np.ndarray:
    """The cells of which the flow path never ends: it leads in a circle."""
    ways, length = targets_of(codes), 1
    while length <= codes.size:
        longer = further(ways)
        if np.array_equal(longer, ways):
            break
        ways, length = longer, 2 * length
    return (codes != 0).reshape(-1)[ways]


def matched_basins(ours: np.ndarray, theirs: np.ndarray) -> Tuple[np.ndarray, int, int, int]:
    """The cells of basins that both maps have as the same set of cells, whatever their numbers.

    Args:
        ours, theirs: (n,) integers, the numbers of the cells that are compared.

    Returns:
        (n,) bool; how many basins are the same; how many there are in ours and in theirs.
    """
    one, one_sizes = np.unique(ours, return_inverse=True, return_counts=True)[1:]
    other, other_sizes = np.unique(theirs, return_inverse=True, return_counts=True)[1:]
    pairs, which, sizes = np.unique(one.astype(np.int64) * other_sizes.size + other, return_inverse=True,
                                    return_counts=True)
    first, second = np.divmod(pairs, other_sizes.size)
    is_same = (sizes == one_sizes[first]) & (sizes == other_sizes[second])
    return is_same[which], int(np.count_nonzero(is_same)), one_sizes.size, other_sizes.size
