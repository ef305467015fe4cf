"""The algorithms of sight: viewsheds, rises and profiles."""
from __future__ import annotations

from typing import Any, Dict, Optional

from qgis.core import (QgsProcessingContext, QgsProcessingException, QgsProcessingFeedback, QgsProcessingOutputBoolean,
                       QgsProcessingOutputNumber, QgsProcessingParameterBand, QgsProcessingParameterBoolean,
                       QgsProcessingParameterDistance, QgsProcessingParameterField,
                       QgsProcessingParameterFileDestination, QgsProcessingParameterNumber, QgsProcessingParameterPoint,
                       QgsProcessingParameterRasterLayer)

from . import labels
from .base import MapAlgorithm, in_labels, tr
from .layers import raster_of
from .library import curvature, errors, profiles, units


class View(MapAlgorithm):
    EYE, EYE_FIELD, TARGET, TARGET_FIELD = "EYE", "EYE_FIELD", "TARGET", "TARGET_FIELD"
    RADIUS, RADIUS_FIELD, NAME_FIELD = "RADIUS", "RADIUS_FIELD", "NAME_FIELD"
    EACH, VISIBILITY, CURVATURE, REFRACTION = "EACH", "VISIBILITY", "CURVATURE", "REFRACTION"
    map, title, output, kind = "view", "Viewshed", "Viewshed", "Observers"
    about = ("How many of the observers see each cell. Lines of sight are straight and exact. The earth is taken for "
             "flat unless you let it curve: at 10 km a target then stands 7.8 m too high. With a radius the raster may "
             "have any size.")
    has_around = False
    # Whether targets have a height that is given, and their sight of each other is told.
    has_targets = True

    def add_places(self) -> None:
        """Adds eyes, targets and radius, by number and by field."""
        super().add_places()
        number, field = QgsProcessingParameterNumber, QgsProcessingParameterField
        # A number that has to be given would begin with 0: one that may be left out begins empty, and is asked for.
        self.addParameter(number(self.EYE, tr(f"{labels.EYE}, in the unit of heights"), number.Double, None, True, 0))
        self.addParameter(field(self.EYE_FIELD, tr(labels.EYE_FIELD), None, self.POINTS, field.Numeric, False, True))
        if self.has_targets:
            self.addParameter(number(self.TARGET, tr(labels.TARGET), number.Double, 0.0, False, 0))
        self.addParameter(QgsProcessingParameterDistance(
            self.RADIUS, tr(f"{labels.RADIUS} (empty: over the whole raster)"), None, self.INPUT, True, 0))
        self.addParameter(QgsProcessingParameterBoolean(self.EACH, tr(labels.EACH), False))
        add_curvature(self)
        for name, label, kind in ((self.TARGET_FIELD, labels.TARGET_FIELD, field.Numeric),
                                  (self.RADIUS_FIELD, labels.RADIUS_FIELD, field.Numeric),
                                  (self.NAME_FIELD, labels.NAME_FIELD, field.Any)):
            if self.has_targets or name != self.TARGET_FIELD:
                self.add_advanced(field(name, tr(label), None, self.POINTS, kind, False, True))
        if self.has_targets:
            self.addParameter(QgsProcessingParameterFileDestination(
                self.VISIBILITY, tr(labels.VISIBILITY), "CSV (*.csv)", None, True, False))

    def checkParameterValues(self, parameters: Dict[str, Any], context: QgsProcessingContext):  # noqa: N802
        """Asks before the run for the one eye that each observer has: a click has none of a field."""
        eye, field, click = (parameters.get(name) not in (None, "") for name in (self.EYE, self.EYE_FIELD, self.AT))
        if click and not eye:
            return False, tr(f"give '{labels.EYE}' for the click")
        if not click and eye == field:
            return False, tr(f"give '{labels.EYE}' or '{labels.EYE_FIELD}'{', not both' if eye else ''}")
        return super().checkParameterValues(parameters, context)

    def fields(self, parameters: Dict[str, Any], context: QgsProcessingContext) -> Dict[str, str]:
        """The fields of eyes, targets, radii and names."""
        names = {"eye": self.EYE_FIELD, "radius": self.RADIUS_FIELD, "label": self.NAME_FIELD}
        if self.has_targets:
            names["above"] = self.TARGET_FIELD
        found = {what: self.parameterAsFields(parameters, name, context) for what, name in names.items()}
        return {what: fields[0] if fields else "" for what, fields in found.items()}

    def job_words(self, parameters, context, layer, target):
        """Adds eyes, targets and radius, and how what is seen is told."""
        words = super().job_words(parameters, context, layer, target)
        if self.has_targets:
            words["above"] = self.number(parameters, self.TARGET, context)
            words["visibility"] = self.parameterAsFileOutput(parameters, self.VISIBILITY, context) or None
        for field, name in (("eye", self.EYE), ("radius", self.RADIUS)):
            if parameters.get(name) not in (None, ""):
                words[field] = self.number(parameters, name, context)
        words["each"] = self.parameterAsBool(parameters, self.EACH, context)
        return {**words, **curvature_of(self, parameters, context)}

    def results(self, asked: Any) -> Dict[str, Any]:
        """Adds the table of who sees whom."""
        return {**super().results(asked), **({self.VISIBILITY: asked.visibility} if asked.visibility else {})}


class Rise(View):
    map, title, output = "rise", "Rise", "Rise"
    about = ("The least height above each cell's ground at which one of the observers sees a target: 0 is what they see "
             "of the ground. Lines of sight are straight and exact. The earth is taken for flat unless you let it "
             "curve. With a radius the raster may have any size.")
    has_targets = False


class Profile(MapAlgorithm):
    FROM, TO, EYE, TARGET, PICTURE = "FROM", "TO", "EYE", "TARGET", "PICTURE"
    CURVATURE, REFRACTION = View.CURVATURE, View.REFRACTION
    SEEN, LEAST_EYE, LEAST_TARGET = "SEEN", "LEAST_EYE", "LEAST_TARGET"
    map, title = "profile", "Profile of a line of sight"
    about = ("The ground under the line of sight between two places, where it blocks the line most, and the least eye "
             "and the least target that clear it. The raster may have any size.")

    def initAlgorithm(self, configuration: Optional[Dict[str, Any]] = None) -> None:  # noqa: N802
        """Defines the dialogue."""
        number, file = QgsProcessingParameterNumber, QgsProcessingParameterFileDestination
        self.addParameter(QgsProcessingParameterRasterLayer(self.INPUT, tr("Heights")))
        self.addParameter(QgsProcessingParameterBand(self.BAND, tr(labels.BAND), 1, self.INPUT, True))
        self.addParameter(QgsProcessingParameterPoint(self.FROM, tr("Observer")))
        self.addParameter(QgsProcessingParameterPoint(self.TO, tr("Target")))
        # As in a viewshed.
        self.addParameter(number(self.EYE, tr(f"{labels.EYE}, in the unit of heights"), number.Double, None, False, 0))
        self.addParameter(number(self.TARGET, tr(labels.TARGET), number.Double, 0.0, False, 0))
        add_curvature(self)
        self.add_advanced(number(self.DECIMALS, tr(labels.DECIMALS), number.Integer, None, True, 0,
                                 units.MOST_DECIMALS))
        self.addParameter(file(self.OUTPUT, tr("Table"), "CSV (*.csv)", None, True, True))
        self.addParameter(file(self.PICTURE, tr("Picture"), "PNG (*.png)", None, True, False))
        self.addOutput(QgsProcessingOutputBoolean(self.SEEN, tr("Seen")))
        self.addOutput(QgsProcessingOutputNumber(self.LEAST_EYE, tr("Least eye")))
        self.addOutput(QgsProcessingOutputNumber(self.LEAST_TARGET, tr("Least target")))

    def processAlgorithm(self, parameters: Dict[str, Any], context: QgsProcessingContext,  # noqa: N802
                         feedback: QgsProcessingFeedback) -> Dict[str, Any]:
        """Works the line out, and tells of it in the log."""
        layer = self.parameterAsRasterLayer(parameters, self.INPUT, context)
        paths = {name: self.parameterAsFileOutput(parameters, name, context) for name in (self.OUTPUT, self.PICTURE)}
        try:
            start, end = (self.click(parameters, context, layer, name, words)
                          for name, words in ((self.FROM, "the observer"), (self.TO, "the target")))
            band = self.band(parameters, context)
            words = curvature_of(self, parameters, context)
            if parameters.get(self.DECIMALS) not in (None, ""):
                words["decimals"] = self.parameterAsInt(parameters, self.DECIMALS, context)
            asked = profiles.ProfileJob(
                raster_of(layer, band).path, start, end, self.number(parameters, self.EYE, context),
                self.number(parameters, self.TARGET, context), band, out=paths[self.OUTPUT] or None,
                picture=paths[self.PICTURE] or None, **words)
            found = profiles.run_profile(asked, lambda line: feedback.pushInfo(in_labels(line)), feedback.pushInfo)
        except errors.GisError as error:
            raise QgsProcessingException(in_labels(str(error))) from None
        return {**{name: path for name, path in paths.items() if path}, self.SEEN: found.is_seen,
                self.LEAST_EYE: float(found.least_eye), self.LEAST_TARGET: float(found.least_target)}


def add_curvature(algorithm: MapAlgorithm) -> None:
    """Adds whether the earth's curvature counts, and the refraction of light."""
    number = QgsProcessingParameterNumber
    algorithm.addParameter(QgsProcessingParameterBoolean(View.CURVATURE, tr(labels.CURVATURE), False))
    algorithm.add_advanced(number(View.REFRACTION, tr(labels.REFRACTION), number.Double,
                                  float(curvature.REFRACTION), False, 0, 1))


def curvature_of(algorithm: MapAlgorithm, parameters: Dict[str, Any], context: QgsProcessingContext) -> Dict[str, Any]:
    """The fields of a job for the curvature of the earth."""
    return {"curvature": algorithm.parameterAsBool(parameters, View.CURVATURE, context),
            "refraction": algorithm.number(parameters, View.REFRACTION, context)}
