"""A plugin for QGIS: algorithms of the Processing toolbox that call rpstore-gis. docs/qgis.md says how it is installed.

program    finds and runs rpstore-gis
algorithm  what all algorithms have in common
layers     the algorithms that make a layer of a script
plans      the algorithm that makes a script of a layer
styles     how the layers look, on the map and in 3D, and when
drawing    a map tool that draws a region
provider   the algorithms under one heading
plugin     adds the provider to Processing, and the map tool to the toolbar
"""


def classFactory(iface):
    """Returns the plugin; QGIS calls it by this name, with its window."""
    from .plugin import Plugin
    return Plugin(iface)
