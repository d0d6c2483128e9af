"""The algorithms that make a layer of a script: each is one word of rpstore-gis that writes GeoJSON."""
import os
import tempfile
from typing import Any, Optional, Sequence

from qgis.core import (
    NULL, QgsFeature, QgsFeatureSink, QgsField, QgsFields, QgsProcessing, QgsProcessingContext, QgsProcessingException, QgsProcessingFeedback,
    QgsProcessingParameterBoolean, QgsProcessingParameterEnum, QgsProcessingParameterFeatureSink, QgsProcessingParameterFeatureSource,
    QgsProcessingParameterFile, QgsProcessingParameterString, QgsVectorLayer, QgsWkbTypes)
from qgis.PyQt.QtCore import QDate, QVariant

from .algorithm import OUTPUT, SCRIPT, Algorithm, Answer, save
from .program import write
from .styles import Look, Styler, kept

KINDS = {"lots": QgsWkbTypes.MultiPolygon, "sections": QgsWkbTypes.MultiPolygon, "areas": QgsWkbTypes.MultiPolygon, "points": QgsWkbTypes.PointZ,
         "faces": QgsWkbTypes.MultiPolygonZ}
# Fields with days, which GDAL takes for texts if all are empty.
DAYS = ("begins", "ends")
# What names no line and no day; models made with version 0.1 have 0 there.
WHOLE = ("", "0")


def typed(fields: QgsFields) -> QgsFields:
    """Returns fields of which those with days are dates."""
    made = QgsFields()
    for field in fields:
        made.append(QgsField(field.name(), QVariant.Date) if field.name() in DAYS else field)
    return made


def dated(feature: QgsFeature, fields: QgsFields) -> QgsFeature:
    """Returns a copy of a feature with these `fields`."""
    made = QgsFeature(fields)
    made.setGeometry(feature.geometry())
    made.setAttributes([value if name not in DAYS or isinstance(value, QDate) else NULL for name, value in zip(fields.names(), feature.attributes())])
    return made


class LayerOfScript(Algorithm):
    """A word that reads a script and writes GeoJSON in one of some `forms`, which looks as `look` says."""

    forms: Sequence[str] = ()
    form_names: Sequence[str] = ()
    geometry = QgsProcessing.TypeVectorPolygon
    look = Look.BY_LAYER

    def initAlgorithm(self, config: Optional[Answer] = None) -> None:
        self.add(QgsProcessingParameterFile(SCRIPT, "Script or book"), "The script (.rp) that the store runs, or a book, whose script is read. It stays as it is.")
        self.addParameters()
        self.add(QgsProcessingParameterEnum("FORM", "Geometry", list(self.form_names), defaultValue=0),
                 "In plan: what is covered, drawn in 3D from the lower height to the upper one. With heights: the exact boundary, as polygons in space.")
        self.add(QgsProcessingParameterString("ASOF", "As it was after this line or day", optional=True),
                 "The number of a line as a report has it, or of a book a day, as 2026-11-30. Without it the whole script is read.", is_advanced=True)
        self.addParameter(QgsProcessingParameterFeatureSink(OUTPUT, self.heading, self.geometry))

    def addParameters(self) -> None:
        """Adds what this word alone has."""

    def words(self, script: str, form: str, parameters: Answer, context: QgsProcessingContext, folder: str) -> list[str]:
        """Returns the words for rpstore-gis. Files for it may be written into a `folder`."""
        raise NotImplementedError

    def processAlgorithm(self, parameters: Answer, context: QgsProcessingContext, feedback: QgsProcessingFeedback) -> Answer:
        form, last = self.forms[self.parameterAsEnum(parameters, "FORM", context)], self.parameterAsString(parameters, "ASOF", context).strip()
        with tempfile.TemporaryDirectory() as folder:
            path = os.path.join(folder, f"{self.word}.geojson")
            words = self.words(self.parameterAsFile(parameters, SCRIPT, context), form, parameters, context, folder)
            write(words + ([] if last in WHOLE else ["--asof", last]), path, feedback)
            return self.copied(path, form, parameters, context, feedback)

    def copied(self, path: str, form: str, parameters: Answer, context: QgsProcessingContext, feedback: QgsProcessingFeedback) -> Answer:
        """Copies the features of a file to where the user asks for them, and has QGIS style the layer if it shows it."""
        layer = QgsVectorLayer(path, self.word, "ogr")
        if not layer.isValid():
            raise QgsProcessingException(f"QGIS cannot read {path}, which rpstore-gis wrote. No layer was made.")
        fields = typed(layer.fields())
        sink, found = self.parameterAsSink(parameters, OUTPUT, context, fields, KINDS[form], layer.crs())
        if sink is None:
            raise QgsProcessingException(self.invalidSinkError(parameters, OUTPUT))
        for feature in layer.getFeatures():
            sink.addFeature(dated(feature, fields), QgsFeatureSink.FastInsert)
        feedback.pushInfo(f"{layer.featureCount()} features")
        if context.willLoadLayerOnCompletion(found):
            context.layerToLoadOnCompletionDetails(found).setPostProcessor(kept(Styler(form, self.look)))
        return {OUTPUT: found}


class Lots(LayerOfScript):
    word, heading = "lots", "Lots of a script"
    help = ("Shows the live lots of a script: what each covers in plan, its boundary in space, or its lines `section`, with heights, exact area and exact "
            "volume. The store checks the report first.")
    forms, form_names = ("lots", "faces", "sections"), ("in plan", "with heights", "sections")

    def addParameters(self) -> None:
        self.add(QgsProcessingParameterBoolean("TIME", "All lots that ever were, for the temporal controller", defaultValue=False),
                 "Each lot has the days at which it came and ended, by the notes of the script that begin with # day. The temporal controller then shows the lots "
                 "of a day. Sections are of live lots alone.")

    def words(self, script: str, form: str, parameters: Answer, context: QgsProcessingContext, folder: str) -> list[str]:
        is_timed = self.parameterAsBool(parameters, "TIME", context)
        if is_timed and form == "sections":
            raise QgsProcessingException("sections are of live lots alone, and all lots that ever were are asked for. Nothing was run: take another geometry.")
        return [form, script] + (["--time"] if is_timed else [])


class Conflicts(LayerOfScript):
    word, heading = "conflicts", "Conflicts of a script"
    help = ("Shows each line of a script that the store refuses: the cause, the lots that are in the way, and the size of what is in the way. A line of which no "
            "place is known is a feature without a geometry.")
    forms, form_names = ("points", "areas", "faces"), ("a point inside", "in plan", "with heights")
    geometry = QgsProcessing.TypeVectorAnyGeometry
    look = Look.CONFLICT

    def words(self, script: str, form: str, parameters: Answer, context: QgsProcessingContext, folder: str) -> list[str]:
        return ["explain", script, "--geojson", form]


class Meets(LayerOfScript):
    word, heading = "meets", "Lots that a region meets"
    help = ("Shows the live lots of a script that share a point with a region, as a tunnel or a flood level, and what each has of it, with its exact volume.")
    forms, form_names = ("lots", "faces"), ("in plan", "with heights")
    look = Look.COMMON

    def addParameters(self) -> None:
        self.addRegion()
        self.add(QgsProcessingParameterString("LAYER", "Lots of this layer alone", optional=True), "A layer of the register, as base. Without it all are asked.",
                 is_advanced=True)

    def addRegion(self) -> None:
        self.add(QgsProcessingParameterString("REGION", "Region, as an expression", multiLine=True),
                 "In the language of the store, in metres from the local origin: box 0.000 0.000 0.000 8.000 6.000 3.000, lot X, name X, or several joined by or.")

    def region(self, parameters: Answer, context: QgsProcessingContext, folder: str) -> list[str]:
        """Returns the words that name the region."""
        return [self.parameterAsString(parameters, "REGION", context).strip()]

    def words(self, script: str, form: str, parameters: Answer, context: QgsProcessingContext, folder: str) -> list[str]:
        layer = self.parameterAsString(parameters, "LAYER", context).strip()
        return ["meets", script, *self.region(parameters, context, folder), "--as", form] + (["--layer", layer] if layer else [])


class MeetsDrawn(Meets):
    word, heading = "meetsdrawn", "Lots that a drawn region meets"
    help = ("Shows the live lots of a script that share a point with polygons between two heights, and what each has of them, with its exact volume. The button "
            "of the toolbar draws such a polygon on the map. Its corners are rounded to the millimetre, and nothing else is.")

    def addRegion(self) -> None:
        self.add(QgsProcessingParameterFeatureSource("DRAWN", "Polygons", [QgsProcessing.TypeVectorPolygon]),
                 "The region in plan, in any grid: all polygons of a layer together, or the selected ones.")
        self.add(QgsProcessingParameterString("FLOOR", "Lower height: a number or a field"), "In metres above the zero of the heights of the script.")
        self.add(QgsProcessingParameterString("TOP", "Upper height: a number or a field"), "In metres above the zero of the heights of the script.")

    def region(self, parameters: Answer, context: QgsProcessingContext, folder: str) -> list[str]:
        path = os.path.join(folder, "drawn.gpkg")
        save(self.parameterAsSource(parameters, "DRAWN", context), path, context)
        heights = [f"--{name.lower()}={self.parameterAsString(parameters, name, context).strip()}" for name in ("FLOOR", "TOP")]
        return [path, "--drawn", *heights]


ALGORITHMS: Sequence[Any] = (Lots, Conflicts, Meets, MeetsDrawn)
