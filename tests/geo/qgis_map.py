"""Draws a union file in QGIS, without a screen: qgis_map.py FILE. It says what QGIS has of the layer."""
import os
import sys

os.environ["QT_QPA_PLATFORM"] = "offscreen"
from qgis.core import QgsApplication, QgsMapRendererSequentialJob, QgsMapSettings, QgsVectorLayer  # noqa: E402
from qgis.PyQt.QtCore import QSize  # noqa: E402

SIDE = 200
application = QgsApplication([], False)
application.initQgis()
layer = QgsVectorLayer(sys.argv[1], "union", "ogr")
settings = QgsMapSettings()
settings.setLayers([layer])
settings.setOutputSize(QSize(SIDE, SIDE))
settings.setExtent(layer.extent())
job = QgsMapRendererSequentialJob(settings)
job.start()
job.waitForFinished()
picture = job.renderedImage()
colors = {picture.pixel(x, y) for x in range(SIDE) for y in range(SIDE)}
print(layer.featureCount(), layer.crs().authid(), *(field.name() for field in layer.fields()), sep=" ", end=", ")
print("drawn" if len(colors) > 1 else "empty", flush=True)
os._exit(0)  # Debian 12's QGIS may crash where it ends
