"""What all algorithms have in common: raster layer in, raster layer out, by the same path as the command."""
from __future__ import annotations

import os
from contextlib import contextmanager
from dataclasses import replace
from decimal import Decimal
from fractions import Fraction
from typing import Any, Callable, Dict, Iterator, List, Optional, Tuple

from qgis.core import (QgsProcessing, QgsProcessingAlgorithm, QgsProcessingContext, QgsProcessingException,
                       QgsProcessingFeedback, QgsProcessingLayerPostProcessorInterface, QgsProcessingParameterBand,
                       QgsProcessingParameterBoolean, QgsProcessingParameterDefinition, QgsProcessingParameterEnum,
                       QgsProcessingParameterExtent, QgsProcessingParameterFeatureSource, QgsProcessingParameterNumber,
                       QgsProcessingParameterPoint, QgsProcessingParameterRasterDestination,
                       QgsProcessingParameterRasterLayer, QgsRasterLayer)
from qgis.PyQt.QtCore import QCoreApplication
from qgis.PyQt.QtGui import QIcon

from . import labels
from .layers import raster_of
from .library import arguments, edges, errors, job, points, program, targets, typed, units, words
from .places import check_change, files_of, points_of

HERE = os.path.dirname(__file__)
COMMON_HELP = ("Cells have to be square, in metres and not in degrees, at most 4,096 by 4,096 of them. Water also "
               "drains off where the data ends, so leave a margin round what you want, and name only holes in which "
               "water stays: sinks are the lowest cells of a quarry, a sinkhole or a lake. The program relief makes "
               "the map: docs/rules.md of relief says what each cell means.")


class Style(QgsProcessingLayerPostProcessorInterface):
    """Gives a new layer the style that was written beside it."""

    # Processing holds no reference of its own, and the algorithm is gone when the layer is loaded.
    kept: Dict[str, "Style"] = {}

    def __init__(self, path: str) -> None:
        super().__init__()
        self.path = path
        self.kept[path] = self

    def postProcessLayer(self, layer: Any, context: Any, feedback: Any) -> None:  # noqa: N802
        """Loads the style, where there is one."""
        if os.path.exists(self.path):
            layer.loadNamedStyle(self.path)
            layer.triggerRepaint()


class Bar:
    """Shows how far the program is: the bar runs once for each stage, whose number stands beside it."""

    def __init__(self, feedback: QgsProcessingFeedback) -> None:
        self.feedback = feedback
        self.label = ""

    def __call__(self, step: Any) -> None:
        label = f"relief {step.map}, stage {step.stage}"
        if label != self.label:
            self.label = label
            self.feedback.setProgressText(label)
            self.feedback.setProgress(0)
        self.feedback.setProgress(100 * step.share)


class MapAlgorithm(QgsProcessingAlgorithm):
    """What all maps have in common: raster, band, decimals, voids, extent, and points by layer or click."""

    INPUT, BAND, DECIMALS, VOIDS, EXTENT = "INPUT", "BAND", "DECIMALS", "VOIDS", "EXTENT"
    POINTS, AT, SKIP, OUTPUT, WORKERS = "POINTS", "AT", "SKIP", "OUTPUT", "WORKERS"
    UNCERTAIN, AROUND = "UNCERTAIN", "AROUND"

    map = ""
    title = ""
    about = ""
    kind = "Sinks"
    output = "Map"
    layers: Tuple[str, ...] = (POINTS,)
    has_around = True

    def createInstance(self) -> "MapAlgorithm":  # noqa: N802
        """A new algorithm of the same map."""
        return type(self)()

    def name(self) -> str:
        """The name behind the colon."""
        return self.map

    def displayName(self) -> str:  # noqa: N802
        """The name in the toolbox."""
        return tr(self.title)

    def icon(self) -> QIcon:
        """The picture in the toolbox."""
        return QIcon(os.path.join(HERE, "icon.svg"))

    def shortHelpString(self) -> str:  # noqa: N802
        """The help beside the dialogue, with the picture of an example where it was installed."""
        picture = os.path.join(HERE, "help", f"{self.map}.png")
        image = f'<p><img src="file://{picture}" width="200"></p>' if os.path.exists(picture) else ""
        return f"<p>{tr(self.about)}</p>{image}<p>{tr(COMMON_HELP)}</p>"

    def initAlgorithm(self, configuration: Optional[Dict[str, Any]] = None) -> None:  # noqa: N802
        """Defines the dialogue."""
        self.addParameter(QgsProcessingParameterRasterLayer(self.INPUT, tr("Heights")))
        self.addParameter(QgsProcessingParameterBand(self.BAND, tr(labels.BAND), 1, self.INPUT, True))
        self.add_places()
        self.addParameter(QgsProcessingParameterEnum(self.VOIDS, tr(labels.HOLES), labels.VOIDS, defaultValue=0))
        self._add_advanced()
        self.add_outputs()

    def add_outputs(self) -> None:
        """Defines what is written."""
        self.addParameter(QgsProcessingParameterRasterDestination(self.OUTPUT, tr(self.output)))
        if self.map in edges.UNCERTAIN_MAPS:
            self.addParameter(QgsProcessingParameterRasterDestination(
                self.UNCERTAIN, tr(labels.UNCERTAIN), None, True, False))

    def add_places(self) -> None:
        """Defines what is asked of places: a layer, a click."""
        self.addParameter(QgsProcessingParameterFeatureSource(
            self.POINTS, tr(self.kind), [QgsProcessing.TypeVectorPoint], optional=True))
        self.addParameter(QgsProcessingParameterPoint(self.AT, tr(f"{self.kind}: one by click"), optional=True))

    def _add_advanced(self) -> None:
        number, most = QgsProcessingParameterNumber, arguments.MOST_WORKERS
        all_cores = min(os.cpu_count() or 1, most)
        decimals = number(self.DECIMALS, tr(f"{labels.DECIMALS} (empty: integers 0, floats 2)"),
                          number.Integer, None, True, 0, units.MOST_DECIMALS)
        workers = number(self.WORKERS, tr(labels.THREADS), number.Integer, all_cores, False, 1, most)
        extent = QgsProcessingParameterExtent(self.EXTENT, tr(f"{labels.EXTENT} (empty: all)"), optional=True)
        skip = QgsProcessingParameterBoolean(self.SKIP, tr(labels.SKIP), False)
        around = QgsProcessingParameterPoint(self.AROUND, tr(f"{labels.AROUND} (empty: all is read)"), optional=True)
        for parameter in (skip, decimals, extent, *([around] if self.has_around else []), workers):
            self.add_advanced(parameter)

    def add_advanced(self, parameter: QgsProcessingParameterDefinition) -> None:
        """Adds a parameter that is folded away at first."""
        parameter.setFlags(parameter.flags() | QgsProcessingParameterDefinition.FlagAdvanced)
        self.addParameter(parameter)

    def processAlgorithm(self, parameters: Dict[str, Any], context: QgsProcessingContext,  # noqa: N802
                         feedback: QgsProcessingFeedback) -> Dict[str, Any]:
        """Makes the map."""
        layer = self.parameterAsRasterLayer(parameters, self.INPUT, context)
        target = self.parameterAsOutputLayer(parameters, self.OUTPUT, context)
        with spoken_in_labels():
            asked = self._job(parameters, context, layer, target)
            if not is_done(lambda caller: job.run(asked, program.Program.find(), caller), feedback):
                return {}
        self.ask_for_style(target, context)
        return self.results(asked)

    def results(self, asked: Any) -> Dict[str, Any]:
        """What the algorithm hands to Processing."""
        return {self.OUTPUT: asked.target, **({self.UNCERTAIN: asked.uncertain} if asked.uncertain else {})}

    def _job(self, parameters: Dict[str, Any], context: QgsProcessingContext, layer: QgsRasterLayer,
             target: str) -> Any:
        """The job, with the command that makes its map again."""
        raster = raster_of(layer, self.band(parameters, context))
        asked = job.Job(source=raster.path, **self.job_words(parameters, context, layer, target))
        command = typed.typed_command(replace(asked, source=raster.name))
        return replace(asked, command=" && ".join(filter(None, (raster.command, command))))

    def band(self, parameters: Dict[str, Any], context: QgsProcessingContext) -> int:
        """The band of heights, from 1."""
        return self.parameterAsInt(parameters, self.BAND, context) or 1

    def job_words(self, parameters: Dict[str, Any], context: QgsProcessingContext, layer: QgsRasterLayer,
                  target: str) -> Dict[str, Any]:
        """The fields of the job but for its source and command."""
        words: Dict[str, Any] = {
            "map": self.map, "target": target, "band": self.band(parameters, context),
            "voids": job.VOIDS[self.parameterAsEnum(parameters, self.VOIDS, context)],
            "workers": self.parameterAsInt(parameters, self.WORKERS, context),
            "places": self.points(parameters, context, layer, self.POINTS, self.AT),
            "skip": self.parameterAsBool(parameters, self.SKIP, context),
            "also_read": [path for name in self.layers for path in files_of(self, parameters, name, context)],
        }
        if self.has_around:
            words["around"] = self.click(parameters, context, layer, self.AROUND, "the place round which is read")
        if self.map in edges.UNCERTAIN_MAPS:
            words["uncertain"] = self.parameterAsOutputLayer(parameters, self.UNCERTAIN, context) or None
        if parameters.get(self.DECIMALS) not in (None, ""):
            words["decimals"] = self.parameterAsInt(parameters, self.DECIMALS, context)
        if parameters.get(self.EXTENT) not in (None, ""):
            check_change(self.parameterAsExtentCrs(parameters, self.EXTENT, context), layer, context, "the extent")
            extent = self.parameterAsExtent(parameters, self.EXTENT, context, layer.crs())
            words["bounds"] = tuple(Fraction(units.decimal_of(number)) for number in (
                extent.xMinimum(), extent.yMinimum(), extent.xMaximum(), extent.yMaximum()))
        return words

    def points(self, parameters: Dict[str, Any], context: QgsProcessingContext, layer: QgsRasterLayer,
               points_name: str, click_name: str) -> List[Any]:
        """The points of a layer and of a click, in the projection of the raster."""
        click = self.click(parameters, context, layer, click_name, "the click") if click_name else None
        found = [] if click is None else [click]
        source = self.parameterAsSource(parameters, points_name, context)
        if source is None:
            return found
        return [*found, *points_of(source, self.fields(parameters, context), layer, context)]

    def click(self, parameters: Dict[str, Any], context: QgsProcessingContext, layer: QgsRasterLayer, name: str,
              words: str) -> Any:
        """The point of a click, in the projection of the raster; None: there is none."""
        if parameters.get(name) in (None, ""):
            return None
        check_change(self.parameterAsPointCrs(parameters, name, context), layer, context, words)
        click = self.parameterAsPoint(parameters, name, context, layer.crs())
        return points.Point(words, units.decimal_of(click.x()), units.decimal_of(click.y()))

    def fields(self, parameters: Dict[str, Any], context: QgsProcessingContext) -> Dict[str, str]:
        """The fields of points by what they are in `points.Point`."""
        return {}

    def number(self, parameters: Dict[str, Any], name: str, context: QgsProcessingContext) -> Decimal:
        """A number of the dialogue as the decimal that was typed."""
        return units.decimal_of(self.parameterAsDouble(parameters, name, context))

    def ask_for_style(self, target: str, context: QgsProcessingContext) -> None:
        """Lets a map that is loaded have the style that lies beside it."""
        if context.willLoadLayerOnCompletion(target):
            context.layerToLoadOnCompletionDetails(target).setPostProcessor(Style(targets.style_path(target)))


@contextmanager
def spoken_in_labels() -> Iterator[None]:
    """Raises errors of the package as those of Processing, in the words of the dialogue."""
    try:
        yield
    except errors.GisError as error:
        raise QgsProcessingException(in_labels(str(error))) from None


def is_done(work: Callable[[Any], None], feedback: QgsProcessingFeedback) -> bool:
    """Does work of the package with lines, progress and cancelling; False: it was cancelled."""
    caller = job.Caller(lambda line: feedback.pushInfo(in_labels(line)), Bar(feedback), feedback.isCanceled,
                        by_percent=True)
    try:
        work(caller)
    except errors.Cancelled:
        return False
    feedback.setProgress(100)
    return True


def in_labels(text: str) -> str:
    """An error's text with the labels of the dialogue in place of the command's options."""
    return words.in_words(text, labels.VOCABULARY)


def tr(text: str) -> str:
    """The text in the language of QGIS."""
    return QCoreApplication.translate("relief", text)
