"""Points of QGIS in the projection of a raster layer.

Coordinates are refused if no shift from their datum to the raster's is known.
"""
from __future__ import annotations

from typing import Any, Dict, Iterator, List

from qgis.core import (QgsCoordinateReferenceSystem, QgsCoordinateTransform, QgsFeatureRequest, QgsProcessingAlgorithm,
                       QgsProcessingContext, QgsProcessingFeatureSource, QgsProcessingFeatureSourceDefinition,
                       QgsProviderRegistry, QgsRasterLayer, QgsWkbTypes)

from .library import errors, points, units

# What the numbers of points are called in messages.
WORDS = {"eye": "eye", "above": "target", "radius": "radius"}


def check_change(reference: QgsCoordinateReferenceSystem, layer: QgsRasterLayer, context: QgsProcessingContext,
                 name: str) -> None:
    """Refuses coordinates if no shift from their datum to the raster's is known.

    Without a shift QGIS uses the degrees unshifted, up to some hundred metres off.
    """
    change = QgsCoordinateTransform(reference, layer.crs(), context.transformContext())
    if "ballpark" in change.instantiatedCoordinateOperationDetails().name.lower():
        raise errors.InputError(f"{name} cannot be projected to the raster: no shift from its datum to that of the "
                                "raster is known here. Give coordinates in the projection of the raster, or install "
                                "the grids of shifts (package proj-data)")


def points_of(source: QgsProcessingFeatureSource, fields: Dict[str, str], layer: QgsRasterLayer,
              context: QgsProcessingContext) -> Iterator[Any]:
    """The points of a layer in the projection of a raster layer, with numbers and labels from its fields.

    Args:
        fields: the layer's field for each attribute of `points.Point` (eye, above, radius, label); "" for none.

    Raises:
        InputError: a feature is no point, or the layer cannot be projected.
        UsageError: a field has no number.
    """
    check_change(source.sourceCrs(), layer, context, source.sourceName())
    request = QgsFeatureRequest().setDestinationCrs(layer.crs(), context.transformContext())
    for feature in source.getFeatures(request):
        yield _point_of(feature, fields)


def files_of(algorithm: QgsProcessingAlgorithm, parameters: Dict[str, Any], name: str,
             context: QgsProcessingContext) -> List[str]:
    """The file of a layer of points, which no output may replace; an empty list for a layer in memory or a database."""
    value = parameters.get(name)
    if isinstance(value, QgsProcessingFeatureSourceDefinition):
        value = value.source.staticValue()
    layer = algorithm.parameterAsVectorLayer({name: value}, name, context) if value else None
    if layer is None or layer.providerType() != "ogr":
        return []
    return [QgsProviderRegistry.instance().decodeUri("ogr", layer.source())["path"]]


def _point_of(feature: Any, fields: Dict[str, str]) -> Any:
    name = f"feature {feature.id()}"
    geometry = feature.geometry()
    if geometry.isEmpty() or QgsWkbTypes.geometryType(geometry.wkbType()) != QgsWkbTypes.PointGeometry \
            or geometry.constGet().partCount() != 1:
        raise errors.InputError(f"{name} is no point")
    point = next(geometry.vertices())
    numbers = {what: units.decimal_of(feature[field], f"the {WORDS[what]} of {name}, {field}")
               for what, field in fields.items() if field and what != "label"}
    label = str(feature[fields["label"]]) if fields.get("label") else ""
    return points.Point(name, units.decimal_of(point.x()), units.decimal_of(point.y()), label=label, **numbers)
