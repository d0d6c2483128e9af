"""Adds the provider to Processing, and the map tool to the toolbar; removes both. QGIS calls the methods by these names."""
from typing import Any, Optional

from qgis.core import QgsApplication, QgsGeometry, QgsProject
from qgis.PyQt.QtWidgets import QAction

from .provider import Provider

MENU = "rpstore"


class Plugin:
    def __init__(self, iface: Any) -> None:
        self.iface = iface
        self.provider: Optional[Provider] = None
        self.action: Optional[QAction] = None

    def initProcessing(self) -> None:
        """Adds the provider; `qgis_process` calls nothing else."""
        self.provider = Provider()
        QgsApplication.processingRegistry().addProvider(self.provider)

    def initGui(self) -> None:
        from .drawing import DrawTool
        self.initProcessing()
        self.action = QAction(self.provider.icon(), "Draw a region: which lots does it meet?", self.iface.mainWindow())
        self.action.setCheckable(True)
        self.tool = DrawTool(self.iface.mapCanvas(), self.ask)
        self.tool.setAction(self.action)
        self.action.triggered.connect(lambda: self.iface.mapCanvas().setMapTool(self.tool))
        self.iface.addToolBarIcon(self.action)
        self.iface.addPluginToMenu(MENU, self.action)

    def ask(self, region: QgsGeometry) -> None:
        """Keeps the region as a layer, and opens the dialog that asks which lots it meets."""
        import processing
        from .drawing import layer_of
        layer = layer_of(region, self.iface.mapCanvas().mapSettings().destinationCrs())
        QgsProject.instance().addMapLayer(layer)
        processing.execAlgorithmDialog("rpstore:meetsdrawn", {"DRAWN": layer.id()})

    def unload(self) -> None:
        if self.action:
            self.iface.mapCanvas().unsetMapTool(self.tool)
            self.iface.removePluginMenu(MENU, self.action)
            self.iface.removeToolBarIcon(self.action)
        QgsApplication.processingRegistry().removeProvider(self.provider)
