"""The plugin: registers the Processing provider and takes it away."""
from __future__ import annotations

from typing import Any, Optional

from qgis.core import QgsApplication

from .provider import ReliefProvider


class ReliefPlugin:
    """What QGIS loads and unloads."""

    def __init__(self, iface: Any) -> None:
        self.iface = iface
        self.provider: Optional[ReliefProvider] = None

    def initProcessing(self) -> None:  # noqa: N802
        """Registers the provider; `qgis_process` calls this alone."""
        self.provider = ReliefProvider()
        QgsApplication.processingRegistry().addProvider(self.provider)

    def initGui(self) -> None:  # noqa: N802
        """Registers the provider in a QGIS with windows."""
        self.initProcessing()

    def unload(self) -> None:
        """Removes the provider."""
        if self.provider is not None:
            QgsApplication.processingRegistry().removeProvider(self.provider)
