"""The files that a run writes: refused before the run where they would replace what is not the run's, and whole."""
from __future__ import annotations

import os
import shlex
import stat
import tempfile
from contextlib import contextmanager
from dataclasses import dataclass
from typing import Callable, Dict, Iterator, List, Mapping, Optional, Sequence, Set, Tuple

from osgeo import gdal

from .datasets import Identity, files_of, identity_of
from .errors import DeviceError, UsageError
from .gdal_errors import raised_errors
from .geotiff import SIDECARS
from .styles import MARK

# What SQLite keeps beside a database that is open, and would read into a new one of that name.
JOURNALS = ("-wal", "-journal")
# The names of layers that this package writes.
LAYERS = {"gauges", "catchments", "streams"}


@dataclass(frozen=True)
class Kind:
    """A kind of file: its words in messages, the endings of its names, and what may lie beside it and is removed."""

    words: str
    content: str
    endings: Tuple[str, ...]
    gdal_kind: int
    sidecars: Tuple[str, ...] = ()


RASTER = Kind("a GeoTIFF", "raster", (".tif", ".tiff"), gdal.OF_RASTER, SIDECARS)
VECTOR = Kind("a GeoPackage", "layer of points", (".gpkg",), gdal.OF_VECTOR)
TABLE = Kind("a table", "table", (".csv",), gdal.OF_VECTOR)
PICTURE = Kind("a picture", "picture", (".png",), gdal.OF_RASTER, (".aux.xml",))


def check_targets(targets: Sequence[Tuple[Optional[str], Kind]], sources: Mapping[str, str]) -> None:
    """Refuses files to be written that cannot be, or that would replace what does not belong to the run.

    Args:
        targets: paths with their kinds; None: not asked for.
        sources: what the run reads, as GDAL opens it, each with its words in messages.

    Raises:
        UsageError: the name is no name for its kind, or that of a file that is read or written already.
        DeviceError: the folder or the file is write-protected, or no file.
    """
    is_read = _words_of_files(sources)
    taken: Set[str] = set()
    for path, kind in targets:
        if path is None:
            continue
        _check_name(path, kind)
        if os.path.realpath(path) in taken:
            raise UsageError(f"{path} would be written twice: give each output a name of its own")
        taken.add(os.path.realpath(path))
        _check_old([path, *(path + ending for ending in kind.sidecars)], is_read)
        _check_content(path, kind)


def _words_of_files(sources: Mapping[str, str]) -> Dict[Identity, str]:
    """What each file is that the run reads."""
    found: Dict[Identity, str] = {}
    for name, words in sources.items():
        whole = "the virtual dataset" if name.lstrip().startswith("<") else name
        for identity, path in files_of([name]).items():
            found.setdefault(identity, f"{words} that is read" if path == name else f"a file of {whole}, which is read")
    return found


def _check_name(path: str, kind: Kind) -> None:
    folder = os.path.dirname(os.path.abspath(path))
    if not os.path.isdir(folder) or not os.access(folder, os.W_OK):
        raise DeviceError(f"{path} cannot be written: no folder {folder} that you may write to")
    if os.path.exists(path) and not os.path.isfile(path):
        raise DeviceError(f"{path} cannot be written: it is {'a folder' if os.path.isdir(path) else 'no file'}")
    if not path.lower().endswith(kind.endings):
        raise UsageError(f"{path} would be {kind.words}: give it a name that ends with {kind.endings[0]}")


def _check_old(paths: Sequence[str], is_read: Mapping[Identity, str]) -> None:
    """Refuses files to be replaced or removed that are read, or that their owner may not write."""
    for path in filter(os.path.exists, paths):
        words = is_read.get(identity_of(path))
        if words is not None:
            raise UsageError(f"{path} is {words}: give the output a name of its own")
        if not is_writable(path):
            raise DeviceError(f"{path} is write-protected: give the output another name, or chmod u+w "
                              f"{shlex.quote(path)}")


def is_writable(path: str) -> bool:
    """Whether the owner of a file may write it; the superuser could, and is asked to change the mode first."""
    return bool(os.stat(path).st_mode & stat.S_IWUSR)


def _check_content(path: str, kind: Kind) -> None:
    """Refuses to replace a file of another kind, one with other layers, or one that is open."""
    if not os.path.exists(path) or os.path.getsize(path) == 0:
        return
    # Before GDAL opens it, which may merge them.
    if kind is VECTOR and any(os.path.exists(path + ending) and os.path.getsize(path + ending) for ending in JOURNALS):
        raise DeviceError(f"{path} is open in another program: close it there, or give the output another name")
    try:
        with raised_errors():
            if gdal.IdentifyDriverEx(path, kind.gdal_kind) is None:
                raise UsageError(f"{path} is there and is no {kind.content}: give the output another name, or remove "
                                 "the file")
            if kind is VECTOR and not _is_own(gdal.OpenEx(path)):
                raise UsageError(f"{path} has other layers, which would be lost: give the output another name")
    except RuntimeError:
        # One that is cut off or damaged is replaced.
        return


def _is_own(dataset: gdal.Dataset) -> bool:
    """Whether a GeoPackage has at most one layer, of a name that this package writes, and no raster."""
    layers = [dataset.GetLayer(at).GetName() for at in range(dataset.GetLayerCount())]
    return (len(layers) <= 1 and LAYERS.issuperset(layers) and not dataset.RasterCount
            and not dataset.GetMetadata("SUBDATASETS"))


def style_path(target: str) -> str:
    """Where the QGIS style of a map lies."""
    return os.path.splitext(target)[0] + ".qml"


def has_foreign_style(target: str) -> bool:
    """Whether a style lies beside a map that this package did not write, or that is write-protected."""
    path = style_path(target)
    if not os.path.lexists(path):
        return False
    if not os.path.isfile(path) or not is_writable(path):
        return True
    try:
        with open(path, "rb") as file:
            return MARK.encode() not in file.read()
    except OSError:
        return True


@contextmanager
def beside(target: str) -> Iterator[Callable[[str], str]]:
    """Temporary names for files to be written: all are renamed at the end, the target last, or all removed."""
    made: List[Tuple[str, str]] = []

    def name_for(path: str) -> str:
        folder, name = os.path.split(os.path.abspath(path))
        room = tempfile.mkdtemp(prefix=f".{name}.", dir=folder)
        made.append((os.path.join(room, name), path))
        return made[-1][0]

    try:
        yield name_for
        for temporary, path in sorted(made, key=lambda pair: pair[1] == target):
            os.replace(temporary, path)
    except DeviceError as error:
        text = str(error)
        for temporary, path in made:
            text = text.replace(temporary, path)
        raise DeviceError(text) from error
    except OSError as error:
        raise DeviceError(f"{target} could not be written: {error.strerror}") from error
    finally:
        for temporary, _ in made:
            _remove_room(os.path.dirname(temporary))


def _remove_room(room: str) -> None:
    for name in os.listdir(room):
        os.remove(os.path.join(room, name))
    os.rmdir(room)
