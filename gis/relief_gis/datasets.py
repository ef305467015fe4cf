"""Which files a raster or a layer is read from, so that no output replaces one of them."""
from __future__ import annotations

import os
import re
import stat
from typing import Dict, Iterator, List, Sequence, Tuple

from osgeo import gdal

from .gdal_errors import raised_errors

# A file's device and number, which all its names share.
Identity = Tuple[int, int]

# The names that hold another one: /vsizip/FILE/PART, GTIFF_DIR:1:FILE, NETCDF:"FILE":NAME, vrt://FILE?bands=1.
PREFIX = re.compile(r"^(?:/?vsi\w+/|vrt://)+")
STARTS = re.compile(r"[:\"'{,=]")
ENDS = re.compile(r"[/:\"'},?|]")
# The roots of files that name others, of which GDAL lists some; and the elements and keys with these names.
VIRTUAL = re.compile(r"\s*(?:<\?xml[^>]*>\s*)?(?:<!--.*?-->\s*)*<(?:VRTDataset|OGRVRTDataSource)\b", re.DOTALL)
SOURCES = ("SourceFilename", "SourceDataset", "SrcDataSource")
KEYS = ("X_DATASET", "Y_DATASET")
HEAD_BYTES = 1024
# What cannot be opened a second time.
STREAMS = ("/vsistdin", "/dev/stdin", "/dev/fd/")


def files_of(names: Sequence[str]) -> Dict[Identity, str]:
    """The files that datasets are read from, each with the name by which it is read.

    Virtual datasets are followed to the files of their sources at any depth. A name that cannot be read has no files.
    """
    found: Dict[Identity, str] = {}
    pending = list(names)
    pending += [part for name in names for part in _listed_by_gdal(name)]
    seen = set()
    while pending:
        name = pending.pop()
        if name in seen or name.startswith(STREAMS):
            continue
        seen.add(name)
        paths = [] if _is_text(name) else real_paths(name)
        found.update((identity_of(path), path) for path in paths)
        # What lies elsewhere than on the disk names no file of it, and may be slow to read.
        if paths or _is_text(name):
            pending += _named_by_virtual(name)
    return found


def _is_text(name: str) -> bool:
    """Whether a name is the text of a virtual dataset."""
    return name.lstrip().startswith("<")


def identity_of(path: str) -> Identity:
    """The device and number of a file that is there."""
    found = os.stat(path)
    return found.st_dev, found.st_ino


def real_paths(name: str) -> List[str]:
    """The files of the disk that a dataset's name holds."""
    if os.path.exists(name):
        return [name]
    starts = [0, *(match.end() for match in STARTS.finditer(name))]
    return [path for start in starts for path in _longest_file(PREFIX.sub("", name[start:], 1))]


def _longest_file(text: str) -> List[str]:
    """The longest beginning of a text that names a file, or nothing."""
    ends = [len(text), *(match.start() for match in reversed(list(ENDS.finditer(text))))]
    return [text[:end] for end in ends if os.path.isfile(text[:end])][:1]


def _listed_by_gdal(name: str) -> List[str]:
    if name.startswith(STREAMS) or (os.path.exists(name) and stat.S_ISFIFO(os.stat(name).st_mode)):
        return []
    try:
        with raised_errors():
            files = gdal.OpenEx(name, gdal.OF_RASTER | gdal.OF_VECTOR).GetFileList()
            # A name that is not in UTF-8 comes as bytes.
            return [os.fsdecode(file) for file in files or []]
    except RuntimeError:
        return []


def _named_by_virtual(name: str) -> Iterator[str]:
    """The names within a virtual dataset, which is a file or the name itself."""
    text = name if _is_text(name) else _text_of_virtual(name)
    if not VIRTUAL.match(text):
        return
    # Few rasters are virtual.
    from xml.etree import ElementTree

    try:
        root = ElementTree.fromstring(text)
    except ElementTree.ParseError:
        return
    for element in root.iter():
        word = (element.text or "").strip()
        if word and (element.tag in SOURCES or element.get("key") in KEYS):
            is_beside = element.get("relativeToVRT") == "1" and not _is_text(name)
            yield os.path.join(os.path.dirname(name), word) if is_beside else word


def _text_of_virtual(name: str) -> str:
    """The text of a virtual dataset, wherever GDAL finds it; empty: it is none."""
    try:
        with raised_errors():
            file = gdal.VSIFOpenL(name, "rb")
            try:
                head = bytes(gdal.VSIFReadL(1, HEAD_BYTES, file))
                if b"VRT" not in head:
                    return ""
                rest = max(gdal.VSIStatL(name).size - len(head), 0)
                return (head + bytes(gdal.VSIFReadL(1, rest, file) or b"")).decode(errors="replace")
            finally:
                gdal.VSIFCloseL(file)
    except (RuntimeError, TypeError, ValueError):
        # No file, or one whose name is not in UTF-8.
        return ""
