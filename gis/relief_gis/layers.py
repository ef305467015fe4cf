"""Features as a GeoPackage of one layer."""
from __future__ import annotations

from typing import Any, Iterable, Sequence, Tuple

from osgeo import gdal, ogr

from .errors import DeviceError
from .frame import Frame
from .gdal_errors import raised_errors
from .geotiff import copy_to_disk, memory_name

# The types of OGR for fields.
FIELD_TYPES = {int: ogr.OFTInteger64, float: ogr.OFTReal, str: ogr.OFTString}

Field = Tuple[str, type]
Feature = Tuple[ogr.Geometry, Sequence[Any]]


def write_layer(path: str, name: str, kind: int, fields: Sequence[Field], features: Iterable[Feature],
                frame: Frame) -> None:
    """Writes features as a GeoPackage.

    Args:
        name: of the layer.
        kind: the type of geometries by OGR.
        fields: name and type of each.
        features: geometry and values of each; a value that is None stays empty.
        frame: of which the layer has the projection.

    Raises:
        DeviceError, OSError: the file could not be written.
    """
    # As a map: a disk that is full is one error, and not one of a destructor.
    memory = memory_name("gpkg")
    try:
        with raised_errors():
            _write(memory, name, kind, fields, features, frame)
        copy_to_disk(memory, path)
    except RuntimeError as error:
        raise DeviceError(f"{path} could not be written: {error}") from error
    finally:
        gdal.Unlink(memory)


def _write(path: str, name: str, kind: int, fields: Sequence[Field], features: Iterable[Feature],
           frame: Frame) -> None:
    dataset = gdal.GetDriverByName("GPKG").Create(path, 0, 0, 0, gdal.GDT_Unknown)
    layer = dataset.CreateLayer(name, frame.spatial_reference(), kind)
    for field, field_type in fields:
        layer.CreateField(ogr.FieldDefn(field, FIELD_TYPES[field_type]))
    layer.StartTransaction()
    for geometry, values in features:
        feature = ogr.Feature(layer.GetLayerDefn())
        for at, value in enumerate(values):
            if value is not None:
                feature.SetField(at, value)
        feature.SetGeometry(geometry)
        layer.CreateFeature(feature)
    layer.CommitTransaction()
