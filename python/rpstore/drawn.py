"""A region that is drawn: the polygons of a file, each between two heights, as an expression of the language.

GDAL reads the file and PROJ brings it to the grid of the script, as for `plan`; rings and heights follow the rules of `plan`.
"""
from __future__ import annotations

from dataclasses import dataclass
from decimal import Decimal
from typing import Optional

from . import Fault, grid, plan, rings
from .place import Place
from .rings import Corner, units


@dataclass
class Options:
    """What the words of the command line say of a drawn region; `words` has what each is for. `region` is the file."""

    region: str
    drawn_layer: Optional[str] = None
    floor: str = "base"
    top: str = "height"


def to_script(features: list[plan.Feature], given: str, place: Place) -> None:
    """Projects the polygons of `features`, whose file names the grid `given`, to the grid of a script. Numbers of a file without a
    grid, and those for a script without one, are metres.

    # Errors
    `Fault` if the script names no grid and the file one that is not in metres, or if PROJ cannot project exactly.
    """
    wanted = f"EPSG:{place.epsg}" if place.epsg else None
    named = grid.named(given or None)
    if wanted is None and named is not None and grid.unit(named) != "metre":
        raise Fault(f"the drawn region is in the unit {grid.unit(named)}, of {named.name}, and the script names no grid. Nothing was asked: --epsg NUMBER "
                    "names the grid of the script.", 5)
    source = None if given and wanted else wanted or grid.METRES
    projected = grid.projection(*grid.grids(given, source, wanted, plan.points_of(features)))
    for feature in features:
        feature.polygons = [[projected(ring) for ring in polygon] for polygon in feature.polygons]


def part_of(feature: plan.Feature, origin: Corner, options: Options) -> str:
    """Returns the expression of a feature in version 2, or "" if the feature has a fault, which it keeps."""
    floor, top = feature.attempt(plan.height_of, options.floor, "floor"), feature.attempt(plan.height_of, options.top, "top")
    if floor is not None and top is not None:
        feature.attempt(plan.check_heights, [floor, top])
    polygons = plan.placed(feature, origin)
    return "" if feature.unfit else rings.expression(polygons, (floor, top))


def in_version(expression: str, version: int) -> str:
    """Spells an expression of version 2 for a script of a `version`: in version 1 a coordinate is the number of its units."""
    if version == 2:
        return expression
    return " ".join(str(int(word.replace(".", ""))) if "." in word else word for word in expression.split(" "))


def expression(options: Options, place: Place, version: int) -> tuple[str, list[str]]:
    """Returns the region as an expression for a script at a `place`, and the lines to report about the region.

    # Errors
    `Fault` if the file cannot be read, or one of its features is no polygon between two heights.
    """
    if plan.MISSING:
        raise Fault(f"{plan.MISSING}, and --drawn needs this package", 5, plan.INSTALL)
    given, features, said = plan.read(options.region, options.drawn_layer)
    for feature in features:
        feature.polygons = feature.attempt(plan.polygons_of, feature.geometry) or []
    to_script(features, given, place)
    origin = units(Decimal(place.east)), units(Decimal(place.north))
    parts = [part_of(feature, origin, options) for feature in features]
    unfit = [(feature, cause) for feature in features for cause in feature.unfit]
    if unfit:
        raise Fault(f"the drawn region is no region: {'; '.join(plan.grouped(unfit, len(features)))}. Nothing was asked.", 2)
    said += plan.grouped([(feature, warning) for feature in features for warning in feature.warned], len(features))
    return in_version(rings.joined("or", parts), version), said
