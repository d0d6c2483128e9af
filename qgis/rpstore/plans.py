"""The algorithm that makes a script of a layer of polygons."""
import os
import tempfile
from typing import Optional

from qgis.core import (
    QgsProcessing, QgsProcessingContext, QgsProcessingFeedback, QgsProcessingParameterBoolean, QgsProcessingParameterFeatureSource,
    QgsProcessingParameterField, QgsProcessingParameterFileDestination, QgsProcessingParameterString)

from .algorithm import OUTPUT, Algorithm, Answer, save
from .program import write


class Register(Algorithm):
    word, heading = "register", "Script that registers a plan"
    help = "Writes a script that registers each polygon of a layer as a lot between two heights. If a polygon cannot be registered, nothing is written."

    def initAlgorithm(self, config: Optional[Answer] = None) -> None:
        self.add(QgsProcessingParameterFeatureSource("PLAN", "Plan", [QgsProcessing.TypeVectorPolygon]),
                 "The polygons. Only the selected ones are read if this is ticked.")
        self.add(QgsProcessingParameterField("ID", "Field with the id", parentLayerParameterName="PLAN"),
                 "An id has 1 to 32 letters without accents, digits, and the signs _ - . , and begins with a letter.")
        self.add(QgsProcessingParameterString("PREFIX", "Letters before each id", defaultValue="", optional=True),
                 "Makes ids of parcel numbers: with the prefix n the lot of 123/4 is n123_4.")
        self.add(QgsProcessingParameterString("FLOOR", "Lower height: a number or a field", defaultValue="base"), "In metres above the zero of the heights.")
        self.add(QgsProcessingParameterString("TOP", "Upper height: a number or a field", defaultValue="height"),
                 "In metres above the zero of the heights, and not above the lower height.")
        self.add(QgsProcessingParameterString("TO", "Grid of the register, if the plan has degrees or feet", optional=True),
                 "As EPSG:25832. A register is in metres.", is_advanced=True)
        self.add(QgsProcessingParameterBoolean("LEAVE_OUT", "Leave out what cannot be registered", defaultValue=False),
                 "The script then has a note in the place of each polygon that is left out.", is_advanced=True)
        self.add(QgsProcessingParameterFileDestination(OUTPUT, "Script", "Scripts of rpstore (*.rp)"), "The file of the script.")

    def processAlgorithm(self, parameters: Answer, context: QgsProcessingContext, feedback: QgsProcessingFeedback) -> Answer:
        texts = {name: self.parameterAsString(parameters, name, context) for name in ("ID", "PREFIX", "FLOOR", "TOP", "TO")}
        words = [f"--{name.lower()}={text}" for name, text in texts.items() if text]
        words += ["--leave-out"] if self.parameterAsBool(parameters, "LEAVE_OUT", context) else []
        out = self.parameterAsFileOutput(parameters, OUTPUT, context)
        with tempfile.TemporaryDirectory() as folder:
            path = os.path.join(folder, "plan.gpkg")
            save(self.parameterAsSource(parameters, "PLAN", context), path, context)
            write(["plan", path, *words], out, feedback)
        return {OUTPUT: out}
