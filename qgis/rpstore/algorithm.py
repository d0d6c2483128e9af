"""What all algorithms have in common. QGIS calls the methods by their names, and asks for each parameter by the word in capitals."""
from typing import Any

from qgis.core import (
    QgsFeatureSink, QgsProcessingAlgorithm, QgsProcessingContext, QgsProcessingException, QgsProcessingFeatureSource,
    QgsProcessingParameterDefinition, QgsVectorFileWriter)

SCRIPT, OUTPUT = "SCRIPT", "OUTPUT"
Answer = dict[str, Any]


class Algorithm(QgsProcessingAlgorithm):
    """One word of rpstore-gis. A subclass has its name, its heading, its help and its parameters."""

    word, heading, help = "", "", ""

    def createInstance(self) -> QgsProcessingAlgorithm:
        return type(self)()

    def name(self) -> str:
        return self.word

    def displayName(self) -> str:
        return self.heading

    def shortHelpString(self) -> str:
        """Returns the help beside the dialog: what the algorithm does, and then each parameter."""
        told = "".join(f"<p><b>{each.description()}</b>: {each.help()}</p>" for each in self.parameterDefinitions() if each.help())
        return f"<p>{self.help}</p>{told}"

    def add(self, parameter: QgsProcessingParameterDefinition, help: str, is_advanced: bool = False) -> None:
        """Adds a parameter with its help, which the dialog shows where the pointer is."""
        parameter.setHelp(help)
        if is_advanced:
            parameter.setFlags(parameter.flags() | QgsProcessingParameterDefinition.FlagAdvanced)
        self.addParameter(parameter)


def save(source: QgsProcessingFeatureSource, path: str, context: QgsProcessingContext) -> None:
    """Writes the features of a `source` to a GeoPackage.

    # Errors
    `QgsProcessingException` if one of them cannot be written.
    """
    options = QgsVectorFileWriter.SaveVectorOptions()
    # A field `fid` of the plan is a property as others are.
    options.driverName, options.layerOptions = "GPKG", ["FID=row_of_rpstore"]
    writer = QgsVectorFileWriter.create(path, source.fields(), source.wkbType(), source.sourceCrs(), context.transformContext(), options)
    for feature in source.getFeatures():
        writer.addFeature(feature, QgsFeatureSink.FastInsert)
    if writer.hasError() or not writer.flushBuffer():
        raise QgsProcessingException(f"the polygons cannot be written for rpstore-gis: {writer.errorMessage()}. Nothing was run.")
    del writer
