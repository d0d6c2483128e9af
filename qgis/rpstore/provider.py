"""The algorithms under one heading of the toolbox, and the settings of the plugin under the options of Processing."""
import os

from processing.core.ProcessingConfig import ProcessingConfig, Setting
from qgis.core import QgsProcessingProvider
from qgis.PyQt.QtGui import QIcon

from . import layers, plans, program

ICON = os.path.join(os.path.dirname(__file__), "icon.svg")


class Provider(QgsProcessingProvider):
    def id(self) -> str:
        return "rpstore"

    def name(self) -> str:
        return "rpstore"

    def longName(self) -> str:
        return "rpstore: exact 3D parcels"

    def icon(self) -> QIcon:
        return QIcon(ICON)

    def svgIconPath(self) -> str:
        return ICON

    def load(self) -> bool:
        ProcessingConfig.settingIcons[self.name()] = self.icon()
        for name, says in program.SETTINGS.items():
            ProcessingConfig.addSetting(Setting(self.name(), name, says, "", valuetype=Setting.FILE))
        ProcessingConfig.readSettings()
        self.refreshAlgorithms()
        return True

    def unload(self) -> None:
        for name in program.SETTINGS:
            ProcessingConfig.removeSetting(name)

    def loadAlgorithms(self) -> None:
        for algorithm in (plans.Register, *layers.ALGORITHMS):
            self.addAlgorithm(algorithm())
