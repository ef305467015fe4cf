"""The commands of GDAL that messages tell users to type: each makes a raster of which the right map is made.

Each gives a NODATA value and a type that has it: where GDAL knows none, cells outside the input become land of 0 m.
"""
from __future__ import annotations

import itertools
import os
import shlex
from dataclasses import dataclass
from fractions import Fraction
from typing import Dict, Tuple, Union

from .units import plain

NODATA = "-9999"
# Types of GDAL with more digits than Float32 has, and the least type with NODATA for each of the others.
WIDE = ("Int32", "UInt32", "Int64", "UInt64", "Float64")
# What GDAL's tools would read wrong: gdalwarp heeds one mask, and before version 3.7 all read bytes without sign.
SEVERAL_MASKS = "give it one NODATA value in place of its masks and alpha bands"
SIGNED = "SIGNEDBYTE"
SIGNED_BYTES = "write it with a type of 16 bits"
WITH_NODATA = {"Byte": "Int16", "Int8": "Int16", "UInt16": "Int32", "UInt32": "Float64", "UInt64": "Float64"}


@dataclass(frozen=True)
class Source:
    """The raster that commands read.

    Attributes:
        path: what GDAL opens.
        kind: the type of the heights by its name in GDAL, or SIGNED.
        band: that of the heights, from 1.
        masks: what takes cells out, as gdal_translate names bands: `mask,1` a mask of band 1, `2` an alpha band.
        is_last: whether the only one of these is an alpha band and the last band, which GDAL's tools then heed.
        reference: the projection that the user gave for a raster that names none, or "".
    """

    path: str
    kind: str = "Float32"
    band: int = 1
    masks: Tuple[str, ...] = ()
    is_last: bool = False
    reference: str = ""


def project(source: Source, code: int, side: float) -> str:
    """The command that projects a raster; `side` is that of the new cells in metres."""
    cell = f"{float(f'{side:.2g}'):g}"
    given = ["-s_srs", source.reference] if source.reference else []
    return _interpolate(source, "metres", "bilinear", *given, "-t_srs", f"EPSG:{code}", "-tr", cell, cell)


def reproject(source: Source, reference: str) -> str:
    """The command that brings a raster to a projection, by whatever words name it."""
    return _interpolate(source, "projected", "bilinear", "-t_srs", reference)


def lay_straight(source: Source) -> str:
    """The command that lays the rows of a turned raster from west to east."""
    return _interpolate(source, "straight", "bilinear")


def make_square(source: Source, side: Fraction) -> str:
    """The command that gives a raster square cells."""
    return _interpolate(source, "square", "bilinear", "-tr", plain(side), plain(side))


def coarsen(source: Source, side: Fraction, times: int) -> str:
    """The command that makes cells so many times larger."""
    return _interpolate(source, "coarser", "average", "-tr", plain(side * times), plain(side * times))


def turn_over(source: Source, corners: Tuple[Fraction, Fraction, Fraction, Fraction],
              sides: Tuple[Fraction, Fraction]) -> str:
    """The command that lets rows run from north to south; of each cell the height stays.

    Args:
        corners: west, south, east, north.
        sides: of a cell, across and down.
    """
    place = ["-te", *(repr(float(corner)) for corner in corners), "-tr", *(repr(float(side)) for side in sides)]
    kind = WITH_NODATA.get(source.kind, source.kind)
    return _warp(source, "north_up", "-ot", kind, *place, "-dstnodata", NODATA)


def name_projection(source: Source) -> str:
    """The command that names a projection, which the user has to know, in place."""
    return shlex.join(["gdal_edit.py", "-a_srs", "EPSG:NUMBER", source.path])


def unscale(source: Source) -> str:
    """The command that writes heights without scale and offset; masks and alpha bands stay."""
    if source.kind == SIGNED:
        return SIGNED_BYTES
    return shlex.join(["gdal_translate", "-ot", "Float64", "-unscale", "-a_nodata", NODATA, source.path,
                       _free_name("unscaled")])


def name_nodata(source: Source, number: float) -> str:
    """The command that names the NODATA value of a raster that has none, in place."""
    return shlex.join(["gdal_edit.py", "-a_nodata", f"{number:g}", source.path])


def add_nodata(source: Source, old: float, number: float, told: Dict[str, Union[float, str]]) -> str:
    """The commands that give NODATA cells and those of one more number one NODATA value.

    Args:
        old: the NODATA value.
        told: scale, offset and units of the heights, which the new raster has to have too.
    """
    obstacle = _obstacle(source)
    if obstacle:
        return obstacle
    commands, path, band, named = [], source.path, source.band, _free_name("named")
    if source.masks:
        # gdal_calc.py reads heights below masks and alpha bands; gdalwarp changes heights that are a new NODATA value.
        commands.append(_warp(source, "unmasked", "-dstnodata", repr(old)))
        path, band = _free_name("unmasked"), band if source.is_last else 1
    commands.append(shlex.join(["gdal_calc.py", "-A", path, f"--A_band={band}", "--calc", "A", "--NoDataValue",
                                f"{number:g}", "--outfile", named]))
    if (told["scale"], told["offset"], told["units"]) != (1, 0, ""):
        words = [word for name, value in told.items() for word in (f"-{name}", str(value))]
        commands.append(shlex.join(["gdal_edit.py", *words, named]))
    return " && ".join(commands)


def _interpolate(source: Source, name: str, how: str, *words: str) -> str:
    wide = "Float64" if source.kind in WIDE else "Float32"
    return _warp(source, name, "-ot", wide, "-r", how, *words, "-dstnodata", NODATA)


def _warp(source: Source, name: str, *words: str) -> str:
    """A command of gdalwarp, which heeds no mask beside NODATA cells, and no alpha band but the last one."""
    obstacle = _obstacle(source)
    if obstacle:
        return obstacle
    if not source.masks or source.is_last:
        return shlex.join(["gdalwarp", *words, source.path, _free_name(name)])
    path = _free_name("with_alpha")
    bands = ["-b", str(source.band), "-b", source.masks[0], "-co", "ALPHA=YES"]
    return " && ".join([shlex.join(["gdal_translate", "-ot", source.kind, *bands, source.path, path]),
                        shlex.join(["gdalwarp", *words, path, _free_name(name)])])


def _obstacle(source: Source) -> str:
    """What has to be done before GDAL's tools read a raster right; empty: nothing."""
    if source.kind == SIGNED:
        return SIGNED_BYTES
    return SEVERAL_MASKS if len(source.masks) > 1 else ""


def _free_name(name: str) -> str:
    """A name of a GeoTIFF that is not there: into a file that is, gdalwarp writes over what lies in it."""
    names = itertools.chain([f"{name}.tif"], (f"{name}_{number}.tif" for number in itertools.count(2)))
    return next(it for it in names if not os.path.exists(it))
