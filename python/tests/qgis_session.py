"""A session of QGIS without a window, which test_qgis runs: what QGIS has in its map after the algorithms of the plugin ran.

The word is the folder of plugins. Standard input has tasks as JSON, and standard output their answers.
"""
import json
import os
import sys

from qgis._3d import Qgs3D
from qgis.core import (
    QgsApplication, QgsCoordinateReferenceSystem, QgsDateTimeRange, QgsFeatureRequest, QgsMapRendererParallelJob, QgsMapSettings, QgsProcessingContext,
    QgsProcessingFeedback, QgsProject, QgsReadWriteContext, QgsRectangle, QgsVectorLayerTemporalContext)
from qgis.gui import QgsMapCanvas
from qgis.PyQt.QtCore import QDate, QDateTime, QPoint, QSize, Qt
from qgis.PyQt.QtGui import QColor
from qgis.PyQt.QtTest import QTest
from qgis.PyQt.QtWidgets import QMainWindow
from qgis.PyQt.QtXml import QDomDocument


def started(plugins):
    app = QgsApplication([], True)
    app.initQgis()
    # What QGIS keeps to itself, as a fault in the styling of a layer.
    app.messageLog().messageReceived.connect(lambda text, tag, level: tag == "Processing" and print(text, file=sys.stderr))
    Qgs3D.initialize()
    sys.path += [plugins, "/usr/share/qgis/python/plugins"]
    from processing.core.Processing import Processing
    Processing.initialize()
    from rpstore.provider import Provider
    provider = Provider()
    QgsApplication.processingRegistry().addProvider(provider)
    return app, provider


def shown(name, given):
    """The layer that QGIS shows after an algorithm ran, styled by the plugin."""
    import processing
    context = QgsProcessingContext()
    context.setProject(QgsProject.instance())
    found = processing.runAndLoadResults(f"rpstore:{name}", {**given, "OUTPUT": "TEMPORARY_OUTPUT"}, QgsProcessingFeedback(), context)
    return QgsProject.instance().mapLayer(found["OUTPUT"])


def picture(layers, path, moment=None):
    """Draws layers, at a day if one is given."""
    settings = QgsMapSettings()
    settings.setLayers(layers)
    settings.setOutputSize(QSize(700, 500))
    settings.setBackgroundColor(QColor("white"))
    settings.setDestinationCrs(layers[0].crs())
    extent = QgsRectangle(layers[0].extent())
    # A layer may have one point alone.
    extent.grow(2)
    settings.setExtent(extent)
    if moment:
        settings.setIsTemporal(True)
        settings.setTemporalRange(range_of(moment))
    job = QgsMapRendererParallelJob(settings)
    job.start()
    job.waitForFinished()
    image = job.renderedImage()
    image.save(path)
    return len({image.pixel(x, y) for x in range(0, 700, 5) for y in range(0, 500, 5)})


def range_of(day):
    """What the temporal controller shows of a day."""
    noon = QDateTime(QDate.fromString(day, "yyyy-MM-dd").startOfDay()).addSecs(12 * 3600)
    return QgsDateTimeRange(noon, noon.addSecs(60))


def on_day(layer, day):
    """The ids of the lots that the temporal controller shows on a day."""
    context = QgsVectorLayerTemporalContext()
    context.setLayer(layer)
    words = layer.temporalProperties().createFilterString(context, range_of(day))
    return sorted(each["id"] for each in layer.getFeatures(QgsFeatureRequest().setFilterExpression(words)))


def in_3d(layer):
    """The style in 3D as QGIS writes it: the kind of the symbol, the clamping, and the expressions by their names."""
    if layer.renderer3D() is None:
        return None
    document = QDomDocument()
    root = document.createElement("style")
    layer.renderer3D().writeXml(root, QgsReadWriteContext())
    symbol = root.firstChildElement("symbol")
    found = {"kind": symbol.attribute("type"), "clamping": symbol.firstChildElement("data").attribute("alt-clamping")}
    for parent in (symbol, symbol.firstChildElement("material")):
        options = parent.firstChildElement("data-defined-properties").elementsByTagName("Option")
        rows = [options.at(place).toElement() for place in range(options.count())]
        for above, below in zip(rows, rows[1:]):
            if below.attribute("name") == "active":
                found[above.attribute("name")] = rows[rows.index(below) + 1].attribute("value")
    return found


def described(layer):
    renderer = layer.renderer()
    return {
        "name": layer.name(), "count": layer.featureCount(), "renderer": renderer.type(), "in_3d": in_3d(layer),
        "legend": [row.value() for row in renderer.categories()] if renderer.type() == "categorizedSymbol" else [],
        "order": renderer.orderByEnabled(), "label": layer.labeling().settings().fieldName if layer.labeling() and layer.labelsEnabled() else None,
        "types": {field.name(): field.typeName() for field in layer.fields()}, "is_temporal": layer.temporalProperties().isActive(),
    }


def show(task):
    layer = shown(task["run"], task["given"])
    answer = described(layer)
    answer["colours"] = picture([layer], task["picture"], task.get("moment"))
    answer["days"] = {day: on_day(layer, day) for day in task.get("days", [])}
    return answer


def draw(task):
    """Clicks on a map with the map tool, and asks what the drawn region meets."""
    from rpstore.drawing import DrawTool, layer_of
    canvas, drawn = QgsMapCanvas(), []
    canvas.resize(400, 400)
    canvas.setDestinationCrs(QgsCoordinateReferenceSystem("EPSG:25832"))
    canvas.setExtent(QgsRectangle(*task["extent"]))
    tool = DrawTool(canvas, drawn.append)
    canvas.setMapTool(tool)
    for x, y in task["clicks"]:
        QTest.mouseClick(canvas.viewport(), Qt.LeftButton, Qt.NoModifier, QPoint(x, y))
    QTest.keyClick(canvas, Qt.Key_Backspace)
    QTest.mouseClick(canvas.viewport(), Qt.RightButton, Qt.NoModifier, QPoint(0, 0))
    [region] = drawn
    layer = layer_of(region, canvas.mapSettings().destinationCrs())
    QgsProject.instance().addMapLayer(layer)
    answer = {"drawn": [[round(point.x(), 3), round(point.y(), 3)] for point in region.asPolygon()[0]], "corners": len(tool.corners)}
    found = shown("meetsdrawn", {**task["given"], "DRAWN": layer})
    answer["met"] = [[each["id"], each["volume"]] for each in found.getFeatures()]
    return answer


class Window:
    """What the plugin asks of the window of QGIS: its map, its toolbar and its menu."""

    def __init__(self):
        self.main, self.canvas, self.shown = QMainWindow(), QgsMapCanvas(), []
        self.canvas.setDestinationCrs(QgsCoordinateReferenceSystem("EPSG:25832"))

    def mainWindow(self):
        return self.main

    def mapCanvas(self):
        return self.canvas

    def addToolBarIcon(self, action):
        self.shown.append("toolbar")

    def addPluginToMenu(self, name, action):
        self.shown.append(name)

    def removeToolBarIcon(self, action):
        self.shown.remove("toolbar")

    def removePluginMenu(self, name, action):
        self.shown.remove(name)


def press(task):
    """Starts the plugin as QGIS does, presses its button, draws a triangle, and ends the plugin."""
    import processing
    import rpstore
    # The plugin adds the provider itself.
    QgsApplication.processingRegistry().removeProvider("rpstore")
    window, dialogs = Window(), []
    processing.execAlgorithmDialog = lambda *words: dialogs.append(words)
    plugin = rpstore.classFactory(window)
    plugin.initGui()
    answer = {"shown": [*window.shown], "has_icon": not plugin.action.icon().isNull()}
    plugin.action.trigger()
    for x, y in task["clicks"]:
        QTest.mouseClick(window.canvas.viewport(), Qt.LeftButton, Qt.NoModifier, QPoint(x, y))
    QTest.mouseClick(window.canvas.viewport(), Qt.RightButton, Qt.NoModifier, QPoint(0, 0))
    [(name, given)] = dialogs
    layer = QgsProject.instance().mapLayer(given["DRAWN"])
    plugin.unload()
    return {**answer, "dialog": name, "layer": [layer.name(), layer.featureCount(), layer.crs().authid()], "left": window.shown}


def main():
    # Python must not drop the two before the end.
    app, provider = started(sys.argv[1])
    answers = []
    for task in json.load(sys.stdin):
        QgsProject.instance().clear()
        answers.append({"show": show, "draw": draw, "press": press}[task["do"]](task))
    # QGIS writes to standard output, too.
    print("ANSWERS", json.dumps(answers))
    sys.stdout.flush()
    # It crashes now and then when it ends.
    os._exit(0)


main()
