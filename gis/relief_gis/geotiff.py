"""Maps as GeoTIFFs: compressed, tiled, written while the program is at work."""
from __future__ import annotations

import itertools
import os
from typing import Dict, Mapping, Optional, Sequence, Tuple

import numpy as np
from osgeo import gdal

from .blocks import PROCESSORS
from .errors import DeviceError
from .frame import Frame
from .gdal_errors import raised_errors
from .grid_text import STRIP

SIDECARS = (".aux.xml", ".ovr", ".msk")
# Level 6 takes two to five times as long as 1 and saves at most a sixth of the bytes.
LAYOUT = ["TILED=YES", "COMPRESS=DEFLATE", "ZLEVEL=1", "BIGTIFF=IF_SAFER"]
# Threads that compress values of up to 4 bytes: one is left to what reads. Longer ones take more.
GDAL_THREADS = max(PROCESSORS - 1, 1)
# How many bytes are copied at once. GDAL's tiles have a side of STRIP.
PIECE = 1 << 20

Color = Tuple[int, int, int, int]
NUMBERS = itertools.count()


def memory_name(ending: str) -> str:
    """A name of GDAL's memory, which is that of this process, that no other file has."""
    return f"/vsimem/relief_gis.{id(NUMBERS):x}.{next(NUMBERS)}.{ending}"


class GeoTiff:
    """A compressed, tiled GeoTIFF that is written in memory by strips of rows, and to the disk when it is whole.

    GDAL writes to memory and Python to the disk: a disk that is full is one error, and not one of a destructor.

    Args:
        dtype: a type that GeoTIFF has.
        frame: where it lies, with its columns and rows.
        nodata: the NODATA value, or None.
        unit: the unit of the values, or "".
        descriptions: what the values are, of each band.
        metadata: texts by name.
        colors: of bytes, the colour of each value.
        is_smooth: whether values differ little from cell to cell, as heights do.
    """

    def __init__(self, dtype: np.dtype, frame: Frame, nodata: Optional[float], unit: str, descriptions: Sequence[str],
                 metadata: Mapping[str, str], colors: Optional[Mapping[int, Color]] = None,
                 is_smooth: bool = False) -> None:
        self.memory = memory_name("tif")
        threads = GDAL_THREADS if dtype.itemsize <= 4 else PROCESSORS
        options = [*LAYOUT, f"PREDICTOR={_predictor(dtype) if is_smooth else 1}", f"NUM_THREADS={threads}"]
        with raised_errors():
            driver = gdal.GetDriverByName("GTiff")
            self.dataset = driver.Create(self.memory, frame.cols, frame.rows, len(descriptions), _gdal_type(dtype),
                                         options)
            self.dataset.SetGeoTransform(frame.geotransform)
            if frame.projection:
                self.dataset.SetProjection(frame.projection)
            _describe(self.dataset, nodata, unit, descriptions, metadata, frame.is_point)
            if colors is not None:
                self.dataset.GetRasterBand(1).SetColorTable(_color_table(colors))

    def put(self, row: int, array: np.ndarray, band: int = 1) -> None:
        """Writes rows from a multiple of STRIP to another one, or to the last.

        Raises:
            DeviceError: there is no memory for them.
        """
        try:
            with raised_errors():
                written = self.dataset.GetRasterBand(band)
                for first in range(0, len(array), STRIP):
                    written.WriteArray(array[first:first + STRIP], 0, row + first)
                    # Tiles that GDAL keeps would need as much memory as the map.
                    written.FlushCache()
        except RuntimeError as error:
            raise DeviceError(f"the map could not be kept: {error}") from error

    def save(self, path: str) -> None:
        """Writes the file, which must not be there.

        Raises:
            DeviceError, OSError: it could not be written.
        """
        try:
            with raised_errors():
                self.dataset.FlushCache()
                self.dataset = None
            copy_to_disk(self.memory, path)
        except RuntimeError as error:
            raise DeviceError(f"{path} could not be written: {error}") from error

    def close(self) -> None:
        """Frees the memory."""
        self.dataset = None
        gdal.Unlink(self.memory)


def _predictor(dtype: np.dtype) -> int:
    """How smooth values are prepared for compression: 2 as differences, 3 by the bytes of floats."""
    # Heights with few decimals as 32-bit floats: an eighth fewer bytes than by 3, in six tenths of the time.
    return 3 if dtype.kind == "f" and dtype.itemsize > 4 else 2


def write_geotiff(path: str, array: np.ndarray, frame: Frame, nodata: Optional[float], description: str,
                  metadata: Mapping[str, str], colors: Optional[Mapping[int, Color]] = None) -> None:
    """Writes an array as a GeoTIFF of one band without unit, as `GeoTiff`.

    Raises:
        DeviceError, OSError: the file could not be written.
    """
    file = GeoTiff(array.dtype, frame, nodata, "", [description], metadata, colors)
    try:
        file.put(0, array)
        file.save(path)
    finally:
        file.close()


def copy_to_disk(memory: str, path: str) -> None:
    """Copies a file that GDAL holds in memory.

    Raises:
        OSError: it could not be written.
    """
    source = gdal.VSIFOpenL(memory, "rb")
    try:
        with open(path, "wb") as file:
            while part := gdal.VSIFReadL(1, PIECE, source):
                file.write(part)
    finally:
        gdal.VSIFCloseL(source)


def _describe(dataset: gdal.Dataset, nodata: Optional[float], unit: str, descriptions: Sequence[str],
              metadata: Mapping[str, str], is_point: bool) -> None:
    words: Dict[str, str] = dict(metadata)
    if is_point:
        words["AREA_OR_POINT"] = "Point"
    dataset.SetMetadata(words)
    for number, description in enumerate(descriptions, 1):
        band = dataset.GetRasterBand(number)
        band.SetDescription(description)
        if unit:
            band.SetUnitType(unit)
        if nodata is not None:
            band.SetNoDataValue(nodata)


def _color_table(colors: Mapping[int, Color]) -> gdal.ColorTable:
    table = gdal.ColorTable()
    for value, color in colors.items():
        table.SetColorEntry(value, color)
    return table


def _gdal_type(dtype: np.dtype) -> int:
    names = {"uint8": gdal.GDT_Byte, "int8": gdal.GDT_Int16, "uint16": gdal.GDT_UInt16, "int16": gdal.GDT_Int16,
             "uint32": gdal.GDT_UInt32, "int32": gdal.GDT_Int32, "float32": gdal.GDT_Float32,
             "float64": gdal.GDT_Float64}
    return names[dtype.name]


def remove_sidecars(path: str) -> None:
    """Removes what tools left beside an older raster of this name: statistics, overviews, masks."""
    for suffix in SIDECARS:
        if os.path.exists(path + suffix):
            os.remove(path + suffix)
