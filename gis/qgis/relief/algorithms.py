"""The algorithms of maps of drainage, and the list of all."""
from __future__ import annotations

from typing import Any, Dict, List, Type

from qgis.core import (QgsProcessing, QgsProcessingAlgorithm, QgsProcessingParameterFeatureSource,
                       QgsProcessingParameterNumber, QgsProcessingParameterVectorDestination)

from . import labels
from .base import MapAlgorithm, tr
from .compare import Compare
from .several import Maps, add_threshold, threshold_of
from .sight import Profile, Rise, View


class Fill(MapAlgorithm):
    map, title, output = "fill", "Filled heights", "Filled heights"
    about = ("The height to which each depression fills before it spills: of each cell the least height at which its "
             "water reaches the data's edge or a sink.")


class Depth(MapAlgorithm):
    map, title, output = "depth", "Depth of depressions", "Depth"
    about = "How deep each cell lies below its filled height."


class Flow(MapAlgorithm):
    map, title, output = "flow", "Flow directions (D8)", "Directions"
    about = "To which neighbour each cell drains: E 1, SE 2, S 4, SW 8, W 16, NW 32, N 64, NE 128; an outlet has 0."


class Accumulate(MapAlgorithm):
    map, title, output = "accumulate", "Flow accumulation", "Accumulation"
    about = "How many other cells drain through each cell; the cell itself is not counted."


class Area(MapAlgorithm):
    map, title, output = "area", "Area upstream", "Area"
    about = "The area that drains through each cell, its own with it, in square units of the projection."


class Streams(MapAlgorithm):
    LINES = "LINES"
    map, title, output = "streams", "Streams", "Streams"
    about = "1 where more than so many other cells drain through a cell, else 0."

    def add_places(self) -> None:
        """Adds the threshold, in cells or as an area."""
        add_threshold(self)
        super().add_places()
        self.addParameter(QgsProcessingParameterVectorDestination(
            self.LINES, tr(labels.LINES), QgsProcessing.TypeVectorLine, None, True, False))

    def job_words(self, parameters, context, layer, target):
        """Adds the threshold and the lines."""
        words = super().job_words(parameters, context, layer, target)
        return {**words, "threshold": threshold_of(self, parameters, context),
                "lines": self.parameterAsOutputLayer(parameters, self.LINES, context) or None}

    def results(self, asked: Any) -> Dict[str, Any]:
        """Adds the lines."""
        return {**super().results(asked), **({self.LINES: asked.lines} if asked.lines else {})}


class Basins(MapAlgorithm):
    LEAST = "LEAST"
    map, title, output = "basins", "Basins", "Basins"
    about = ("The number of the outlet to which each cell drains. Outlets lie where the data ends, and are numbered "
             "from the north-west. For what drains to a gauge take <i>Catchments of gauges</i>.")

    def add_places(self) -> None:
        """Adds the size of basins."""
        super().add_places()
        number = QgsProcessingParameterNumber
        self.add_advanced(number(self.LEAST, tr(labels.LEAST), number.Integer, None, True, 0))

    def job_words(self, parameters, context, layer, target):
        """Adds the size of basins."""
        words = super().job_words(parameters, context, layer, target)
        is_given = parameters.get(self.LEAST) not in (None, "")
        return {**words, "least": self.parameterAsInt(parameters, self.LEAST, context) if is_given else None}


class Catchments(MapAlgorithm):
    SNAP, SNAPPED, SINKS, POLYGONS = "SNAP", "SNAPPED", "SINKS", "POLYGONS"
    map, title, output, kind = "catchments", "Catchments of gauges", "Catchments", "Gauges"
    layers = (MapAlgorithm.POINTS, SINKS)
    about = ("Which gauge the water of each cell meets first, by the gauge's place in the list; 0: none. Nested gauges "
             "divide the land. A gauge beside the stream has a small catchment: let it move to the greatest "
             "accumulation. The log counts the cells that drain to each gauge first, and those of them that lie where "
             "the data ends: land beyond may drain in there, also to the gauges below.")

    def add_places(self) -> None:
        """Adds sinks and the way of gauges to the stream."""
        super().add_places()
        number = QgsProcessingParameterNumber
        self.addParameter(number(self.SNAP, tr(labels.SNAP),
                                 number.Integer, 0, False, 0))
        self.addParameter(QgsProcessingParameterFeatureSource(
            self.SINKS, tr("Sinks"), [QgsProcessing.TypeVectorPoint], optional=True))
        self.addParameter(QgsProcessingParameterVectorDestination(
            self.SNAPPED, tr("Moved gauges"), QgsProcessing.TypeVectorPoint, None, True, False))
        self.addParameter(QgsProcessingParameterVectorDestination(
            self.POLYGONS, tr(labels.POLYGONS), QgsProcessing.TypeVectorPolygon, None, True, False))

    def job_words(self, parameters, context, layer, target):
        """Adds sinks and the way of gauges to the stream."""
        words = super().job_words(parameters, context, layer, target)
        cells = self.parameterAsInt(parameters, self.SNAP, context)
        snapped = self.parameterAsOutputLayer(parameters, self.SNAPPED, context)
        return {**words, "sinks": self.points(parameters, context, layer, self.SINKS, ""),
                "snap": cells if cells or snapped else None, "snapped": snapped or None,
                "polygons": self.parameterAsOutputLayer(parameters, self.POLYGONS, context) or None}

    def results(self, asked: Any) -> Dict[str, Any]:
        """Adds the moved gauges and the areas."""
        more = {self.SNAPPED: asked.snapped, self.POLYGONS: asked.polygons}
        return {**super().results(asked), **{name: path for name, path in more.items() if path}}


ALGORITHMS: List[Type[QgsProcessingAlgorithm]] = [
    Fill, Depth, Flow, Accumulate, Area, Streams, Basins, Catchments, Maps, View, Rise, Profile, Compare]
