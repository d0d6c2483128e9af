"""Finds and runs rpstore-gis."""
import os
import shutil
import subprocess
from typing import Sequence

from processing.core.ProcessingConfig import ProcessingConfig
from qgis.core import QgsProcessingException, QgsProcessingFeedback

# The settings, which are named as the variables whose place they take, and how the options of Processing call them.
SETTINGS = {"RPSTORE_GIS": "Program rpstore-gis, if it is not in the PATH", "RPSTORE": "Program of the store, if it is not next to rpstore-gis"}
# QGIS sets these for its own libraries and its own Python.
OF_QGIS = ("PYTHONHOME", "LD_LIBRARY_PATH")
# Written, and something is to be said: that some line of a script is refused (1), or that the report is too long to be checked (7).
WRITTEN = (0, 1, 7)


def settings() -> dict[str, str]:
    """Returns the settings that are set."""
    found = {name: ProcessingConfig.getSetting(name) for name in SETTINGS}
    return {name: text for name, text in found.items() if text}


def program() -> str:
    """Returns the command rpstore-gis: by the setting, the variable RPSTORE_GIS, or the PATH.

    # Errors
    `QgsProcessingException` if there is none.
    """
    found = settings().get("RPSTORE_GIS") or os.environ.get("RPSTORE_GIS") or shutil.which("rpstore-gis")
    if not found:
        raise QgsProcessingException("rpstore-gis is not found. Nothing was run: name it in the options of Processing under Providers, rpstore, put it in the "
                                     "PATH, or name it in the variable RPSTORE_GIS.")
    return found


def write(words: Sequence[str], path: str, feedback: QgsProcessingFeedback) -> None:
    """Runs rpstore-gis with `words` so that it writes the file `path`. What it says goes to the log.

    # Errors
    `QgsProcessingException` with what it says, if it writes no file.
    """
    feedback.pushInfo(" ".join(["rpstore-gis", *words]))
    free = {name: text for name, text in os.environ.items() if name not in OF_QGIS}
    try:
        done = subprocess.run([program(), *words, "-o", path], stdout=subprocess.PIPE, stderr=subprocess.PIPE, env={**free, **settings()})
    except OSError as error:
        raise QgsProcessingException(f"rpstore-gis cannot be run: {error}. Nothing was run: correct its path in the options of Processing under Providers, rpstore.")
    said = done.stderr.decode("utf-8", "replace").strip()
    if done.returncode not in WRITTEN or not os.path.exists(path):
        raise QgsProcessingException(said or f"rpstore-gis ended with status {done.returncode}, and wrote nothing.")
    for line in said.splitlines():
        (feedback.pushWarning if done.returncode else feedback.pushInfo)(line)
