"""A map tool that draws a region in plan."""
from typing import Callable

from qgis.core import QgsCoordinateReferenceSystem, QgsFeature, QgsGeometry, QgsPointXY, QgsVectorLayer, QgsWkbTypes
from qgis.gui import QgsMapCanvas, QgsMapMouseEvent, QgsMapTool, QgsRubberBand
from qgis.PyQt.QtCore import Qt
from qgis.PyQt.QtGui import QColor, QKeyEvent

FILL = QColor(214, 96, 77, 90)
FEWEST = 3


class DrawTool(QgsMapTool):
    """Draws a polygon: the left button sets a corner, the right one ends the polygon, the backspace key takes the last corner
    away, and the escape key all. A corner snaps as the project says."""

    def __init__(self, canvas: QgsMapCanvas, drawn: Callable[[QgsGeometry], None]) -> None:
        super().__init__(canvas)
        self.drawn = drawn
        self.corners: list[QgsPointXY] = []
        self.band = QgsRubberBand(canvas, QgsWkbTypes.PolygonGeometry)
        self.band.setColor(FILL)

    def show(self, *following: QgsPointXY) -> None:
        """Draws the corners, and those that may follow."""
        self.band.setToGeometry(QgsGeometry.fromPolygonXY([[*self.corners, *following]]), None)

    def clear(self) -> None:
        self.corners = []
        self.band.reset(QgsWkbTypes.PolygonGeometry)

    def canvasMoveEvent(self, event: QgsMapMouseEvent) -> None:
        if self.corners:
            self.show(event.snapPoint())

    def canvasReleaseEvent(self, event: QgsMapMouseEvent) -> None:
        if event.button() == Qt.LeftButton:
            self.corners.append(event.snapPoint())
            self.show()
        elif event.button() == Qt.RightButton:
            corners = self.corners
            self.clear()
            if len(corners) >= FEWEST:
                self.drawn(QgsGeometry.fromPolygonXY([[*corners, corners[0]]]))

    def keyPressEvent(self, event: QKeyEvent) -> None:
        if event.key() == Qt.Key_Escape:
            self.clear()
        elif event.key() == Qt.Key_Backspace and self.corners:
            self.corners.pop()
            self.show()
            event.ignore()

    def deactivate(self) -> None:
        self.clear()
        super().deactivate()


def layer_of(region: QgsGeometry, grid: QgsCoordinateReferenceSystem) -> QgsVectorLayer:
    """Returns a layer that has a region alone."""
    layer = QgsVectorLayer("Polygon", "drawn region", "memory")
    layer.setCrs(grid)
    feature = QgsFeature()
    feature.setGeometry(region)
    layer.dataProvider().addFeature(feature)
    return layer
