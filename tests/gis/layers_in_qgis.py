"""Runs algorithms within QGIS on layers that are set as a user sets them: PLUGINS CASES.

CASES is a list in JSON of {"algorithm", "source", "parameters"} with, where they are set, "crs", "nodata" (numbers or
pairs of numbers), "source_nodata", "band" and "points" (the source and the provider of a layer). Prints a line in JSON
for each: whether it worked, and what was said.
"""
import json
import sys

from qgis.core import (QgsApplication, QgsCoordinateReferenceSystem, QgsProcessingContext, QgsProcessingFeedback,
                       QgsProject, QgsRasterLayer, QgsRasterRange, QgsVectorLayer)

plugins, cases = sys.argv[1:]
sys.path.insert(0, plugins)
application = QgsApplication([], False)
application.initQgis()
from relief.provider import ReliefProvider  # noqa: E402 (QGIS comes first)

provider = ReliefProvider()
QgsApplication.processingRegistry().addProvider(provider)


class Feedback(QgsProcessingFeedback):
    """Keeps the lines that it is told."""

    def __init__(self):
        super().__init__(False)
        self.said = []

    def pushInfo(self, line):  # noqa: N802
        self.said.append(line)

    def reportError(self, line, is_fatal=False):  # noqa: N802
        self.said.append(line)


def layer_of(case):
    """The layer of a case in the project, with what its user set."""
    layer = QgsRasterLayer(case["source"], "heights")
    band = case.get("band", 1)
    if "crs" in case:
        layer.setCrs(QgsCoordinateReferenceSystem(case["crs"]))
    if "nodata" in case:
        pairs = [it if isinstance(it, list) else [it, it] for it in case["nodata"]]
        layer.dataProvider().setUserNoDataValue(band, [QgsRasterRange(*pair) for pair in pairs])
    if "source_nodata" in case:
        layer.dataProvider().setUseSourceNoDataValue(band, case["source_nodata"])
    return QgsProject.instance().addMapLayer(layer)


def run(case):
    """Whether a case worked, and what was said."""
    algorithm = QgsApplication.processingRegistry().algorithmById(f"relief:{case['algorithm']}").create()
    feedback, context = Feedback(), QgsProcessingContext()
    context.setProject(QgsProject.instance())
    parameters = {"INPUT": layer_of(case).id(), **case["parameters"]}
    if "points" in case:
        source, provider = case["points"]
        parameters["POINTS"] = QgsProject.instance().addMapLayer(QgsVectorLayer(source, "points", provider)).id()
    can_run, reason = algorithm.checkParameterValues(parameters, context)
    if not can_run:
        return False, reason
    _, worked = algorithm.run(parameters, context, feedback)
    return worked, "\n".join(feedback.said)


for case in json.loads(cases):
    print(json.dumps(run(case)))
application.exitQgis()
