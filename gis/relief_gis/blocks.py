"""Work on blocks of rows, shared by threads: numpy frees Python's lock while it computes."""
from __future__ import annotations

import os
from collections import deque
from concurrent.futures import Future, ThreadPoolExecutor
from typing import Any, Callable, Deque, Iterable, Iterator, List, Optional, Tuple, Type, TypeVar

import numpy as np

Item = TypeVar("Item")
Result = TypeVar("Result")

# A call of numpy takes so long that threads seldom wait for Python's lock, and not all of a processor's cache.
CELLS = 1 << 18
MOST_THREADS = 8
# Arrays up to this size, of blocks and strips, are freed for reuse.
KEPT = 5 << 20
# How many calls of `Behind` wait at most.
MOST_BEHIND = 1
PROCESSORS = len(os.sched_getaffinity(0)) if hasattr(os, "sched_getaffinity") else os.cpu_count() or 1
# One is left to the program and to what is serial.
THREADS = max(min(PROCESSORS - 1, MOST_THREADS), 1)
# Those of `in_order`: as many are left to the program, to pipes and to compression.
FEW_THREADS = max(min(PROCESSORS // 2, MOST_THREADS), 1)


def _keep_freed() -> None:
    """Lets the C library keep what is freed, in place of returning it to the system, for arrays of up to KEPT bytes.

    Of glibc the greatest block that was freed sets the size from which blocks are the system's own. New pages cost more
    than what is computed in them: they double the time in which a map is read.
    """
    np.empty(KEPT, np.uint8)


_keep_freed()


def row_blocks(shape: Tuple[int, ...]) -> List[slice]:
    """Blocks of rows that cover an array, from its first row to its last."""
    rows, cols = shape
    step = max(1, CELLS // cols)
    return [slice(first, min(first + step, rows)) for first in range(0, rows, step)]


def in_order(work: Callable[[Item], Result], items: Iterable[Optional[Item]]) -> Iterator[Result]:
    """The results of a function for each item, in order; few of them wait at a time, and none at a None among items."""
    waiting: Deque["Future[Result]"] = deque()
    with ThreadPoolExecutor(FEW_THREADS) as pool:
        for item in items:
            if item is not None:
                waiting.append(pool.submit(work, item))
            while len(waiting) > (0 if item is None else 2 * FEW_THREADS):
                yield waiting.popleft().result()
        while waiting:
            yield waiting.popleft().result()


class Behind:
    """Calls of a function in another thread, in their order, of which few wait at a time.

    At the end of a `with` block all are done; an error of one of them is raised at a later call, or there.
    """

    def __init__(self, work: Callable[..., object]) -> None:
        self._work = work
        self._pool = ThreadPoolExecutor(1)
        self._waiting: Deque["Future[object]"] = deque()

    def __call__(self, *words: Any) -> None:
        self._waiting.append(self._pool.submit(self._work, *words))
        if len(self._waiting) > MOST_BEHIND:
            self._waiting.popleft().result()

    def finish(self) -> None:
        """Waits until all calls are done; raises the first error of one."""
        while self._waiting:
            self._waiting.popleft().result()

    def __enter__(self) -> Behind:
        return self

    def __exit__(self, kind: Optional[Type[BaseException]], *_: object) -> None:
        self._pool.shutdown()
        if kind is None:
            self.finish()


def for_rows(work: Callable[[slice], Result], shape: Tuple[int, ...]) -> List[Result]:
    """Calls a function with each block of rows; its results, in no order."""
    blocks = row_blocks(shape)
    shares = [blocks[first::THREADS] for first in range(min(THREADS, len(blocks)))]
    if len(blocks) == 1:
        return [work(blocks[0])]
    with ThreadPoolExecutor(len(shares)) as pool:
        return [result for part in pool.map(lambda share: [work(rows) for rows in share], shares) for result in part]


def array_of(work: Callable[[slice], np.ndarray], shape: Tuple[int, ...], dtype: "np.typing.DTypeLike") -> np.ndarray:
    """An array of a type of which a function returns each block of rows."""
    array = np.empty(shape, dtype)

    def put(rows: slice) -> None:
        array[rows] = work(rows)

    for_rows(put, shape)
    return array


def rows_of(values: np.ndarray, valid: np.ndarray, rows: slice, rest: Any = 0) -> np.ndarray:
    """Rows of values, with another value where there is no data."""
    return values[rows] if valid[rows].all() else np.where(valid[rows], values[rows], values.dtype.type(rest))


def data_ends(values: np.ndarray, valid: np.ndarray) -> Optional[Tuple[Any, Any]]:
    """The least and the greatest of the values where there is data, NaN where one is NaN; None: there is none."""

    def ends(rows: slice) -> Optional[Tuple[Any, Any]]:
        data = values[rows] if valid[rows].all() else values[rows][valid[rows]]
        return (data.min(), data.max()) if data.size else None

    found = [pair for pair in for_rows(ends, values.shape) if pair is not None]
    # An array's least and greatest are NaN where one of them is.
    return (np.array([low for low, _ in found]).min(), np.array([high for _, high in found]).max()) if found else None
