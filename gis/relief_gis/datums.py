"""How coordinates of points become those of a raster, where what PROJ would do is known to be right."""
from __future__ import annotations

from typing import List, Optional, Tuple

from osgeo import osr

from .errors import InputError
from .frame import Frame, reference_of


def change_between(reference: Optional[osr.SpatialReference], frame: Frame, path: str,
                   notes: List[str]) -> Optional[osr.CoordinateTransformation]:
    """How coordinates of a layer become those of the raster; None: they are the same.

    Args:
        reference: the projection of the layer, or None.
        path: the layer's file, for messages.
        notes: lines for the user are added here.

    Raises:
        InputError: no shift from the layer's datum to that of the raster is known.
    """
    target = frame.spatial_reference()
    if reference is None or reference.IsLocal():
        notes.append(f"{path} names no projection: its coordinates are taken as those of the raster")
        return None
    if target is None or target.IsLocal():
        notes.append("the raster has no projection: coordinates are taken as they are")
        return None
    source, target = _level(reference), _level(target)
    if source.IsSame(target):
        return None
    try:
        change = osr.CoordinateTransformation(source, target, _options())
    except RuntimeError:
        raise InputError(f"{path} cannot be projected to the raster: no shift from its datum to that of the raster is "
                         "known here. Give coordinates in the projection of the raster, or install the grids of shifts "
                         "(package proj-data)") from None
    if not _is_exact_to_a_cell(source, target, frame):
        notes.append(f"{path} is on another datum than the raster, and the shift that is known here may be wrong by "
                     "more than a cell: check where its points lie, or install the grids of shifts (package proj-data)")
    return change


def _options() -> osr.CoordinateTransformationOptions:
    options = osr.CoordinateTransformationOptions()
    # Between datums of which no relation is known PROJ would take degrees as they are, up to some hundred metres off.
    options.SetBallparkAllowed(False)
    return options


def _level(reference: osr.SpatialReference) -> osr.SpatialReference:
    """A projection without heights, with x before y."""
    level = reference_of(reference.ExportToWkt())
    level.StripVertical()
    level.DemoteTo2D()
    return level


def _is_exact_to_a_cell(source: osr.SpatialReference, target: osr.SpatialReference, frame: Frame) -> bool:
    """Whether PROJ has a shift for the raster's area that is exact to the side of a cell."""
    if source.CloneGeogCS().IsSame(target.CloneGeogCS()):
        return True
    options = _options()
    options.SetDesiredAccuracy(float(frame.cell) * target.GetLinearUnits())
    try:
        options.SetAreaOfInterest(*_degrees_around(target, frame))
        osr.CoordinateTransformation(source, target, options)
    except RuntimeError:
        return False
    return True


def _degrees_around(target: osr.SpatialReference, frame: Frame) -> Tuple[float, float, float, float]:
    """West, south, east and north of a raster in degrees, by its corners."""
    degrees = reference_of(target.CloneGeogCS().ExportToWkt())
    change = osr.CoordinateTransformation(target, degrees)
    corners = [change.TransformPoint(*frame.centre(row, col))[:2] for row in (0, frame.rows - 1)
               for col in (0, frame.cols - 1)]
    longitudes, latitudes = zip(*corners)
    return min(longitudes), min(latitudes), max(longitudes), max(latitudes)
