"""The raster of a layer as the user set it: with the CRS and the values without data of the project."""
from __future__ import annotations

import math
import os
import re
import shlex
from dataclasses import dataclass
from typing import Any, List

import numpy as np
from osgeo import gdal
from qgis.core import QgsCoordinateReferenceSystem, QgsProcessingUtils, QgsRasterLayer

from .library import errors, gdal_errors

SEVERAL = ("the layer has several values, or a range, without data in this project: save it by Export, Save As with "
           "these No data values, and take the new layer")


@dataclass(frozen=True)
class Raster:
    """What is read of a layer.

    Attributes:
        path: what GDAL opens: the layer's own source, or a VRT of it.
        name: how the path is typed.
        command: the command that makes the VRT under that name, or "".
    """

    path: str
    name: str
    command: str = ""


def raster_of(layer: QgsRasterLayer, band: int) -> Raster:
    """The raster of a layer with the CRS and the value without data that the layer has in the project.

    Raises:
        InputError: the layer is of another kind, or what was set has no raster.
    """
    if layer is None or layer.providerType() != "gdal":
        raise errors.InputError("the heights have to be a raster layer of a file that GDAL opens")
    source = layer.source()
    nodata = _nodata_words(layer.dataProvider(), band)
    words = ["-of", "VRT", *_projection_words(layer), *nodata]
    if len(words) == 2:
        return Raster(source, source)
    stem = re.sub(r"\W+", "_", os.path.splitext(os.path.basename(source))[0])[-40:] or "heights"
    name = f"{stem}_as_set.vrt"
    path = QgsProcessingUtils.generateTempFilename(name)
    _translate(source, path, words, band, nodata)
    return Raster(path, name, shlex.join(["gdal_translate", "-q", *words, source, name]))


def _translate(source: str, path: str, words: List[str], band: int, nodata: List[str]) -> None:
    try:
        with gdal_errors.raised_errors():
            dataset = gdal.Translate(path, source, options=words)
            made = dataset.GetRasterBand(band)
            found, kind = made.GetNoDataValue(), made.DataType
            # The file is written when no name holds the dataset.
            del made, dataset
    except RuntimeError as error:
        raise errors.DeviceError(f"{source} could not be read: {error}") from error
    if not nodata or nodata[1] == "none":
        return
    wanted = float(nodata[1])
    # GDAL gives a type the nearest value that it can have.
    is_float = kind in (gdal.GDT_Float32, gdal.GDT_Float64)
    if found is None or found != wanted and not (is_float and np.float32(found) == np.float32(wanted)):
        raise errors.InputError(f"no cell of the band can have {nodata[1]}, the additional no data value of the "
                                "layer: take it out of the layer's properties")


def _projection_words(layer: QgsRasterLayer) -> List[str]:
    """The words that give a raster the CRS of its layer; none where it has it."""
    wanted, found = layer.crs(), layer.dataProvider().crs()
    if wanted == found:
        return []
    if not wanted.isValid():
        raise errors.InputError(f"the layer has no CRS in this project, and its file has {found.authid() or 'one'}: "
                                "set it in the layer's properties")
    name = wanted.authid()
    is_public = bool(name) and not name.startswith("USER:")
    return ["-a_srs", name if is_public else wanted.toWkt(QgsCoordinateReferenceSystem.WKT_PREFERRED_GDAL)]


def _nodata_words(provider: Any, band: int) -> List[str]:
    """The words that give a band the value without data of its layer; none where it has it."""
    own = [provider.sourceNoDataValue(band)] if provider.sourceHasNoDataValue(band) else []
    # NaN is never data.
    own = [value for value in own if not math.isnan(value)]
    ranges = provider.userNoDataValues(band)
    is_used = provider.useSourceNoDataValue(band)
    if any(it.min() != it.max() for it in ranges):
        raise errors.InputError(SEVERAL)
    values = {it.min() for it in ranges if not math.isnan(it.min())} | set(own if is_used else [])
    if values == set(own):
        return []
    if ranges and (provider.bandScale(band), provider.bandOffset(band)) != (1.0, 0.0):
        raise errors.InputError("the band has a scale or offset, and an additional no data value in this project: "
                                "gdal_translate -unscale it first")
    if len(values) > 1:
        raise errors.InputError(SEVERAL)
    return ["-a_nodata", f"{values.pop()!r}" if values else "none"]
