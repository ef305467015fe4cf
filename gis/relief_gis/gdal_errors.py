"""GDAL with exceptions, within a block: other code in the same process keeps its own setting."""
from __future__ import annotations

import threading
from contextlib import contextmanager
from typing import Iterator, List

from osgeo import gdal, ogr, osr

MODULES = (gdal, ogr, osr)
# The setting is one of all threads: the first block makes it, and the last one undoes it.
_lock = threading.Lock()
_blocks = 0
_before: List[int] = []


@contextmanager
def raised_errors() -> Iterator[None]:
    """Makes errors of GDAL exceptions (RuntimeError) and keeps its warnings off standard error."""
    _begin()
    gdal.PushErrorHandler("CPLQuietErrorHandler")
    try:
        yield
    finally:
        gdal.PopErrorHandler()
        _end()


def _begin() -> None:
    global _blocks
    with _lock:
        if _blocks == 0:
            _before[:] = [module.GetUseExceptions() for module in MODULES]
            for module in MODULES:
                module.UseExceptions()
        _blocks += 1


def _end() -> None:
    global _blocks
    with _lock:
        _blocks -= 1
        if _blocks == 0:
            # GDAL wants them undone in the opposite order.
            for module, used in reversed(list(zip(MODULES, _before))):
                if not used:
                    module.DontUseExceptions()
