"""The algorithm that compares another program's map with the definition."""
from __future__ import annotations

from dataclasses import replace
from typing import Any, Dict, List

from qgis.core import (QgsProcessingContext, QgsProcessingFeedback, QgsProcessingOutputString,
                       QgsProcessingParameterBand, QgsProcessingParameterEnum, QgsProcessingParameterRasterDestination,
                       QgsProcessingParameterRasterLayer, QgsRasterLayer)

from . import labels
from .base import MapAlgorithm, is_done, spoken_in_labels, tr
from .layers import raster_of
from .library import comparison, differences, foreign, job, program, typed


class Compare(MapAlgorithm):
    OTHER, OTHER_BAND, MAP, CODES, ANSWER = "OTHER", "OTHER_BAND", "MAP", "CODES", "ANSWER"
    map, title, output = "compare", "Compare another program's map", "Differences"
    about = ("Where another program's map of the same cells differs from the definition, and by how much: filled "
             "heights, directions, accumulations or basins. The log has the answer.")
    has_around = False

    def add_places(self) -> None:
        """Adds the other map, what it is, and its codes."""
        self.addParameter(QgsProcessingParameterRasterLayer(self.OTHER, tr("The other map")))
        self.addParameter(QgsProcessingParameterBand(self.OTHER_BAND, tr(labels.OTHER_BAND), 1, self.OTHER, True))
        self.addParameter(QgsProcessingParameterEnum(self.MAP, tr("What it is"), labels.COMPARED))
        self.addParameter(QgsProcessingParameterEnum(self.CODES, tr(labels.CODES), list(foreign.CODES), defaultValue=0))
        super().add_places()

    def add_outputs(self) -> None:
        """Defines the raster of differences and the text of the answer."""
        self.addParameter(QgsProcessingParameterRasterDestination(self.OUTPUT, tr(self.output), None, True, False))
        self.addOutput(QgsProcessingOutputString(self.ANSWER, tr("Answer")))

    def processAlgorithm(self, parameters: Dict[str, Any], context: QgsProcessingContext,  # noqa: N802
                         feedback: QgsProcessingFeedback) -> Dict[str, Any]:
        """Compares both maps, and tells of it in the log."""
        layer, other = (self.parameterAsRasterLayer(parameters, name, context) for name in (self.INPUT, self.OTHER))
        lines: List[str] = []
        with spoken_in_labels():
            asked = self._comparison(parameters, context, layer, other)
            found = program.Program.find()
            if not is_done(lambda caller: comparison.run_comparison(asked, found, caller, lines.append), feedback):
                return {}
        for line in lines:
            feedback.pushInfo(line)
        return {self.ANSWER: "\n".join(lines), **({self.OUTPUT: asked.out} if asked.out else {})}

    def _comparison(self, parameters: Dict[str, Any], context: QgsProcessingContext, layer: QgsRasterLayer,
                    other: QgsRasterLayer) -> Any:
        """The comparison, with the command that makes it again."""
        other_band = self.parameterAsInt(parameters, self.OTHER_BAND, context) or 1
        heights, theirs = raster_of(layer, self.band(parameters, context)), raster_of(other, other_band)
        words = self.job_words(parameters, context, layer, "")
        words["map"] = differences.COMPARED[self.parameterAsEnum(parameters, self.MAP, context)]
        codes = list(foreign.CODES)[self.parameterAsEnum(parameters, self.CODES, context)]
        out = self.parameterAsOutputLayer(parameters, self.OUTPUT, context) or None
        asked = comparison.Comparison(job.Job(source=heights.path, **words), theirs.path, other_band, codes, out)
        named = replace(asked, job=replace(asked.job, source=heights.name), other=theirs.name)
        command = " && ".join(filter(None, (heights.command, theirs.command, typed.typed_comparison(named))))
        return replace(asked, job=replace(asked.job, command=command))
