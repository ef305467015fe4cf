"""The algorithm that makes several maps of drainage by one run."""
from __future__ import annotations

from dataclasses import replace
from typing import Any, Dict, List

from qgis.core import (QgsProcessing, QgsProcessingContext, QgsProcessingFeedback, QgsProcessingParameterFeatureSource,
                       QgsProcessingParameterNumber, QgsProcessingParameterRasterDestination, QgsRasterLayer)

from . import labels
from .base import MapAlgorithm, is_done, spoken_in_labels, tr
from .layers import raster_of
from .library import job, program, typed, units

THRESHOLD, THRESHOLD_AREA = "THRESHOLD", "THRESHOLD_AREA"


class Maps(MapAlgorithm):
    SNAP, SINKS = "SNAP", "SINKS"
    map, title, kind = "maps", "Several maps of drainage", "Gauges"
    layers = (MapAlgorithm.POINTS, SINKS)
    about = ("Maps of drainage by one run, in little more than the time of one. Choose a file for each map that you "
             "want. Gauges are for the catchments, the threshold is for the streams.")

    def add_places(self) -> None:
        """Adds gauges, sinks and the threshold."""
        super().add_places()
        number = QgsProcessingParameterNumber
        self.addParameter(number(self.SNAP, tr(labels.SNAP), number.Integer, 0, False, 0))
        self.addParameter(QgsProcessingParameterFeatureSource(
            self.SINKS, tr("Sinks"), [QgsProcessing.TypeVectorPoint], optional=True))
        add_threshold(self)

    def add_outputs(self) -> None:
        """Defines a raster for each map, none of which has to be written."""
        for name, label in labels.TOGETHER.items():
            self.addParameter(QgsProcessingParameterRasterDestination(name.upper(), tr(label), None, True, False))

    def checkParameterValues(self, parameters: Dict[str, Any], context: QgsProcessingContext):  # noqa: N802
        """Refuses parameters without a map, and gauges without a map of catchments."""
        wanted = [name for name in labels.TOGETHER if parameters.get(name.upper()) not in (None, "")]
        if not wanted:
            return False, tr("choose a file for one of the maps")
        has_gauges = any(parameters.get(name) not in (None, "") for name in (self.POINTS, self.AT))
        if has_gauges and "catchments" not in wanted:
            return False, tr("gauges need the map of catchments: choose a file for it")
        return super().checkParameterValues(parameters, context)

    def processAlgorithm(self, parameters: Dict[str, Any], context: QgsProcessingContext,  # noqa: N802
                         feedback: QgsProcessingFeedback) -> Dict[str, Any]:
        """Makes the maps."""
        layer = self.parameterAsRasterLayer(parameters, self.INPUT, context)
        with spoken_in_labels():
            jobs = self._jobs(parameters, context, layer)
            if not is_done(lambda caller: job.run_all(jobs, program.Program.find(), caller), feedback):
                return {}
        for asked in jobs:
            self.ask_for_style(asked.target, context)
        return {asked.map.upper(): asked.target for asked in jobs}

    def _jobs(self, parameters: Dict[str, Any], context: QgsProcessingContext, layer: QgsRasterLayer) -> List[Any]:
        """The jobs of the maps that are asked for, each with the command that makes it alone."""
        raster = raster_of(layer, self.band(parameters, context))
        words = self.job_words(parameters, context, layer, "")
        sinks = self.points(parameters, context, layer, self.SINKS, "")
        own = {"streams": {"threshold": threshold_of(self, parameters, context)},
               "catchments": {"places": words["places"], "sinks": sinks,
                              "snap": self.parameterAsInt(parameters, self.SNAP, context) or None}}
        found = []
        for name in labels.TOGETHER:
            target = self.parameterAsOutputLayer(parameters, name.upper(), context)
            if target:
                asked = job.Job(source=raster.path, **{**words, "places": sinks, **own.get(name, {}), "map": name,
                                                       "target": target})
                command = typed.typed_command(replace(asked, source=raster.name))
                found.append(replace(asked, command=" && ".join(filter(None, (raster.command, command)))))
        return found


def add_threshold(algorithm: MapAlgorithm) -> None:
    """Adds the threshold of streams, in cells or as an area."""
    number = QgsProcessingParameterNumber
    algorithm.addParameter(number(THRESHOLD, tr(labels.THRESHOLD), number.Integer, 1000, False, 0))
    algorithm.addParameter(number(THRESHOLD_AREA, tr(labels.THRESHOLD_AREA), number.Double, None, True, 0))


def threshold_of(algorithm: MapAlgorithm, parameters: Dict[str, Any], context: QgsProcessingContext) -> Any:
    """The threshold of streams: the area, where there is one, else the number of cells."""
    if parameters.get(THRESHOLD_AREA) in (None, ""):
        return algorithm.parameterAsInt(parameters, THRESHOLD, context)
    hectares = algorithm.number(parameters, THRESHOLD_AREA, context)
    return units.measure_of(f"{hectares:f}ha", units.AREAS, "the area")
