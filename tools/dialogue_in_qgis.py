"""Run by QGIS (--code, see dialogue_picture): maps catchments, opens their dialogue, and saves both windows as a picture.

The variable ROOM names a folder with dem.tif and gauges.gpkg, which gets picture.png.
"""
import os
import traceback

import processing
import qgis.utils
from qgis.core import QgsProject, QgsRasterLayer, QgsVectorLayer
from qgis.PyQt.QtCore import Qt, QTimer
from qgis.PyQt.QtGui import QImage, QPainter
from qgis.PyQt.QtWidgets import QDockWidget

ROOM = os.environ["ROOM"]
STARTED, DRAWN = 4000, 4000
GAP = 10


def path(name):
    return os.path.join(ROOM, name)


def end(status):
    """Ends QGIS without the questions that it would ask."""
    os._exit(status)


def guarded(step):
    """A step that ends QGIS where it fails."""
    def run():
        try:
            step()
        except Exception:
            traceback.print_exc()
            end(1)
    return run


def begin():
    qgis.utils.loadPlugin("relief")
    qgis.utils.startPlugin("relief")
    dem = QgsRasterLayer(path("dem.tif"), "dem")
    gauges = QgsVectorLayer(path("gauges.gpkg"), "gauges")
    shade = processing.run("native:hillshade", {"INPUT": path("dem.tif"), "AZIMUTH": 300, "V_ANGLE": 40,
                                                "OUTPUT": path("hillshade.tif")})
    made = processing.run("relief:catchments", {"INPUT": dem, "POINTS": gauges, "OUTPUT": path("catchments.tif")})
    catchments = QgsRasterLayer(made["OUTPUT"], "Catchments")
    catchments.renderer().setOpacity(0.7)
    QgsProject.instance().addMapLayers([gauges, catchments, QgsRasterLayer(shade["OUTPUT"], "hillshade"), dem])
    tree = QgsProject.instance().layerTreeRoot()
    for layer in (dem, catchments):
        tree.findLayer(layer.id()).setExpanded(layer is catchments)
    tree.findLayer(dem.id()).setItemVisibilityChecked(False)
    window = qgis.utils.iface.mainWindow()
    window.findChild(QDockWidget, "Browser").close()
    window.resize(1050, 760)
    dialog = processing.createAlgorithmDialog("relief:catchments",
                                              {"INPUT": dem.id(), "POINTS": gauges.id(), "SNAP": 2})
    dialog.resize(840, 760)
    dialog.show()
    QTimer.singleShot(DRAWN // 2, lambda: qgis.utils.iface.mapCanvas().zoomToFullExtent())
    QTimer.singleShot(DRAWN, guarded(lambda: save(window, dialog)))


def save(*windows):
    images = [window.grab().toImage() for window in windows]
    width = sum(image.width() for image in images) + GAP * (len(images) - 1)
    picture = QImage(width, max(image.height() for image in images), QImage.Format_RGB32)
    picture.fill(Qt.black)
    painter, left = QPainter(picture), 0
    for image in images:
        painter.drawImage(left, 0, image)
        left += image.width() + GAP
    painter.end()
    picture.save(path("picture.png"))
    end(0)


QTimer.singleShot(STARTED, guarded(begin))
