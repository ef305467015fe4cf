"""QGIS plugin: a Processing provider with the maps of `relief`."""


def classFactory(iface):  # noqa: N802 (QGIS asks for this name)
    """Makes the plugin."""
    from .plugin import ReliefPlugin
    return ReliefPlugin(iface)
