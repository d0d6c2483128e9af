"""How the layers look on the map and in 3D, and at which days features are shown.

A style is a .qml file, in which __COLOUR__ stands for the expression of a colour. QGIS calls `postProcessLayer` when it has
added a layer to the project.
"""
import collections
import enum
import html
import itertools
import os

from qgis.core import (
    QgsCategorizedSymbolRenderer, QgsMapLayer, QgsProcessingContext, QgsProcessingFeedback, QgsProcessingLayerPostProcessorInterface,
    QgsRendererCategory, QgsVectorLayer, QgsVectorLayerTemporalProperties)
from qgis.PyQt.QtGui import QColor
from qgis.PyQt.QtXml import QDomDocument

FOLDER = os.path.join(os.path.dirname(__file__), "styles")
# The style of each form.
STYLES = {"lots": "extruded", "areas": "extruded", "sections": "extruded", "faces": "faces", "points": "points"}
# Of the layers of a register, in the order of their names; they come again after the last.
PALETTE = ("#8fb3d9", "#f2b56b", "#9ccb86", "#d98fb0", "#b7a3d9", "#e6d36a", "#7fc9c4", "#c9a27f")


class Look(enum.Enum):
    """What the colour of a feature tells."""

    BY_LAYER = "by layer"
    CONFLICT = "#d6604d"
    COMMON = "#e08a2c"


def colours(names: list[str]) -> dict[str, str]:
    """Returns a colour for each layer of the register."""
    return dict(zip(names, itertools.cycle(PALETTE)))


def colour_expression(look: Look, found: dict[str, str]) -> str:
    """Returns the expression of QGIS that gives the colour of a feature."""
    if look is not Look.BY_LAYER or not found:
        return f"'{PALETTE[0] if look is Look.BY_LAYER else look.value}'"
    cases = " ".join(f"WHEN \"layer\" = '{name}' THEN '{colour}'" for name, colour in found.items())
    return f"CASE {cases} ELSE '{PALETTE[0]}' END"


def load(layer: QgsVectorLayer, style: str, colour: str) -> None:
    """Sets the style of a layer by the file of a `style`, with the expression of a colour."""
    with open(os.path.join(FOLDER, f"{style}.qml"), encoding="utf-8") as file:
        text = file.read().replace("__COLOUR__", html.escape(colour))
    document = QDomDocument()
    document.setContent(text)
    layer.importNamedStyle(document, QgsMapLayer.AllStyleCategories)


def categorize(layer: QgsVectorLayer, found: dict[str, str]) -> None:
    """Gives each layer of the register a row of the legend, in which it is switched on and off."""
    plain = layer.renderer()
    rows = []
    for name, colour in found.items():
        symbol = plain.symbol().clone()
        symbol.setColor(QColor(colour))
        rows.append(QgsRendererCategory(name, symbol, name))
    made = QgsCategorizedSymbolRenderer("layer", rows)
    made.setOrderBy(plain.orderBy())
    made.setOrderByEnabled(plain.orderByEnabled())
    layer.setRenderer(made)


def set_days(layer: QgsVectorLayer) -> None:
    """Has the temporal controller show a feature from the day on at which it begins, up to the day before it ends."""
    days = layer.temporalProperties()
    days.setMode(QgsVectorLayerTemporalProperties.ModeFeatureDateTimeStartAndEndFromFields)
    days.setStartField("begins")
    days.setEndField("ends")
    days.setIsActive(True)


class Styler(QgsProcessingLayerPostProcessorInterface):
    """Styles a layer of a `form`."""

    def __init__(self, form: str, look: Look) -> None:
        super().__init__()
        self.form, self.look = form, look

    def postProcessLayer(self, layer: QgsMapLayer, context: QgsProcessingContext, feedback: QgsProcessingFeedback) -> None:
        names = layer.fields().names()
        place = layer.fields().indexOf("layer") if self.look is Look.BY_LAYER else -1
        found = colours(sorted(filter(None, layer.uniqueValues(place)))) if place >= 0 else {}
        load(layer, STYLES[self.form], colour_expression(self.look, found))
        if found:
            categorize(layer, found)
        if "begins" in names and any(feature["begins"] for feature in layer.getFeatures()):
            set_days(layer)
        layer.triggerRepaint()


# QGIS keeps no Python object that it calls later, and the algorithm is gone by then.
STYLERS: collections.deque[Styler] = collections.deque(maxlen=256)


def kept(styler: Styler) -> Styler:
    """Returns a styler, and keeps it until QGIS has called it."""
    STYLERS.append(styler)
    return styler
