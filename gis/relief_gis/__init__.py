"""Drainage and visibility maps of numpy arrays and rasters, made by the program `relief`.

The functions take and return arrays (`relief_gis.arrays` says which); the command `relief-gis` handles rasters,
projections and points (`relief_gis.job`). `relief` makes the maps of drainage and sight. `depth`, `area`, `streams`,
`uncertain`, `visibility`, `compare` and `basins` without small ones are derived from its maps here. `profile` runs no
program.
"""
from importlib import import_module
from typing import TYPE_CHECKING, Any, List

if TYPE_CHECKING:
    from .arrays import (Differences, Maps, Sight, Visibility, accumulate, area, basins, catchments, compare, depth,
                         fill, flow, maps, profile, rise, streams, uncertain, view, view_each, visibility)
    from .errors import Cancelled, DeviceError, GisError, InputError, MissingError, ReliefError, UsageError
    from .making import NODATA_CODE, NODATA_COUNT
    from .program import Program
    from .sightline import Profile

__version__ = "0.2.0"
__all__ = [
    "accumulate", "area", "basins", "catchments", "compare", "depth", "fill", "flow", "maps", "profile", "rise",
    "streams", "uncertain", "view", "view_each", "visibility", "Differences", "Maps", "NODATA_CODE", "NODATA_COUNT",
    "Profile", "Program", "Sight", "Visibility",
    "Cancelled", "DeviceError", "GisError", "InputError", "MissingError", "ReliefError", "UsageError",
]
# Where names outside `arrays` are defined.
_MODULES = {"NODATA_CODE": "making", "NODATA_COUNT": "making", "Profile": "sightline", "Program": "program",
            **{name: "errors" for name in ("Cancelled", "DeviceError", "GisError", "InputError", "MissingError",
                                           "ReliefError", "UsageError")}}


def __getattr__(name: str) -> Any:
    """Imports a name of `__all__`, or the module `arrays`, at its first use, since the command needs few names."""
    if name == "arrays":
        return import_module(".arrays", __name__)
    if name not in __all__:
        raise AttributeError(f"module {__name__!r} has no attribute {name!r}")
    value = globals()[name] = getattr(import_module(f".{_MODULES.get(name, 'arrays')}", __name__), name)
    return value


def __dir__() -> List[str]:
    return sorted({*globals(), *__all__})
