"""The Processing provider `relief`."""
from __future__ import annotations

import os
from typing import List

from qgis.core import QgsProcessingProvider
from qgis.PyQt.QtGui import QIcon

from .algorithms import ALGORITHMS

ICON = os.path.join(os.path.dirname(__file__), "icon.svg")


class ReliefProvider(QgsProcessingProvider):
    """One algorithm for each map."""

    def id(self) -> str:
        """The name before the colon of each algorithm."""
        return "relief"

    def name(self) -> str:
        """The name in the toolbox."""
        return "relief"

    def icon(self) -> QIcon:
        """The picture in the toolbox."""
        return QIcon(ICON)

    def supportedOutputRasterLayerExtensions(self) -> List[str]:  # noqa: N802
        """What maps are written as: GeoTIFFs."""
        return ["tif", "tiff"]

    def supportedOutputVectorLayerExtensions(self) -> List[str]:  # noqa: N802
        """What gauges, areas and streams are written as: GeoPackages."""
        return ["gpkg"]

    def loadAlgorithms(self) -> None:  # noqa: N802
        """Adds the algorithms."""
        for algorithm in ALGORITHMS:
            self.addAlgorithm(algorithm())
