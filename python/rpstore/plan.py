"""Writes a script of version 2 that registers the polygons of a plan. GDAL reads the plan, in any format it knows, and PROJ
brings it to the grid of the register. docs/plans.md has the rules and examples."""
import json
import logging
import re
from collections import defaultdict
from dataclasses import dataclass, field
from decimal import Decimal
from typing import Any, Callable, Iterator, Optional, Sequence

from . import Fault, grid, rings, usage
from .command import MOST_NODES, NAME, NODES, spelled
from .limits import MOST_SCRIPT
from .place import Place
from .report import LONG
from .rings import Corner, Unfit, units

try:
    import fiona
    import fiona.drvsupport
    import fiona.errors
    from shapely.geometry import Polygon
    from shapely.validation import explain_validity
    MISSING = grid.MISSING
except ImportError as error:
    MISSING = error

INSTALL = "install them with 'apt-get install python3-fiona python3-pyproj python3-shapely'"
MOST_STOREYS = 999
NUMBER = re.compile(r"[+-]?([0-9]+(\.[0-9]*)?|\.[0-9]+)([eE][+-]?[0-9]{1,3})?")
# Formats that GDAL reads and fiona does not try by itself. A driver that this GDAL does not have is no fault.
MORE_FORMATS = ("KML", "LIBKML", "OSM", "PostgreSQL", "MySQL", "MSSQLSpatial", "OCI", "PDF", "JML", "WFS", "OAPIF", "GMLAS", "NAS",
                "DGN", "CAD", "VRT", "MapML", "GeoJSONSeq", "Parquet", "Arrow")
OTHER_ID = "give it another id, or take --number with --prefix"
# The option that names the property of each value.
OPTIONS = {"id": "--id", "floor": "--floor", "top": "--top", "count of storeys": "--storeys", "height of a storey": "--storey-height"}
# So many features of one cause are named.
FEW = 5


@dataclass
class Options:
    """What the words of the command line say; `words` tells what each is for. The store `program` is asked for the parts of lots;
    without it nothing is said of limits."""

    program: Optional[str] = None
    layer: Optional[str] = None
    id: str = "id"
    number: bool = False
    prefix: str = ""
    floor: str = "base"
    top: str = "height"
    storeys: Optional[str] = None
    storey_height: str = "3"
    source: Optional[str] = None
    to: Optional[str] = None
    origin: Optional[Sequence[Decimal]] = None
    section: Sequence[Decimal] = ()
    bare: bool = False
    leave_out: bool = False


@dataclass
class Feature:
    """A feature of a plan: its number, from 1; its properties and its geometry; the polygons of that, each a list of rings; and
    why it cannot be registered, and what else is to be said of it."""

    number: int
    properties: dict[str, Any]
    geometry: Optional[dict[str, Any]]
    polygons: list[list[grid.Ring]] = field(default_factory=list)
    id: str = ""
    unfit: list[Unfit] = field(default_factory=list)
    warned: list[Unfit] = field(default_factory=list)

    @property
    def said(self) -> str:
        return f"feature {self.number}" + (f", {self.id}" if self.id else "")

    def attempt(self, ask: Callable[..., Any], *given: Any) -> Any:
        """Returns what a function gives, or nothing where it finds a cause why the feature cannot be registered."""
        try:
            return ask(self, *given)
        except Unfit as unfit:
            self.unfit.append(unfit)
            return None


# ---- ids and heights

def value_of(feature: Feature, word: str, what: str) -> Any:
    """Returns the property that a word names."""
    value = feature.properties.get(word)
    if value is None or value == "":
        there = "is empty" if word in feature.properties else f"is not there; the properties are {', '.join(feature.properties) or 'none'}"
        raise Unfit(f"no {what}: the property {word!a} {there}", remedy=f"fill it, or name another by {OPTIONS[what]}")
    return value


def number_of(feature: Feature, word: str, what: str) -> Decimal:
    """Returns a number: the word itself where it is one, else the property that it names."""
    value = word if NUMBER.fullmatch(word) else value_of(feature, word, what)
    if isinstance(value, bool) or not NUMBER.fullmatch(str(value)):
        raise Unfit(f"the {what} is no number", ascii(value)[:60], "write metres as 3.50")
    return Decimal(str(value))


def height_of(feature: Feature, word: str, what: str) -> int:
    """Returns a height in units."""
    value = number_of(feature, word, what)
    if abs(value) > rings.MOST_SIDE // 1000 + 1 or abs(units(value)) > rings.MOST_SIDE:
        raise Unfit(f"the {what} is more than {spelled(rings.MOST_SIDE)} m from 0", str(value), "correct it: heights are in metres")
    return units(value)


def count_of(feature: Feature, word: str) -> int:
    """Returns how many storeys a feature has."""
    value = number_of(feature, word, "count of storeys")
    if value not in range(1, MOST_STOREYS + 1):
        raise Unfit(f"the count of storeys is no whole number from 1 to {MOST_STOREYS}", str(value), "correct it")
    return int(value)


def heights_of(feature: Feature, options: Options) -> list[Optional[int]]:
    """Returns the heights between which the lots of a feature lie, from below: two, or with storeys one more than these."""
    floor = feature.attempt(height_of, options.floor, "floor")
    if options.storeys is None:
        return [floor, feature.attempt(height_of, options.top, "top")]
    count, high = feature.attempt(count_of, options.storeys), feature.attempt(height_of, options.storey_height, "height of a storey")
    return [None] if None in (floor, count, high) else [floor + storey * high for storey in range(count + 1)]


def check_heights(_: Feature, heights: list[int]) -> None:
    if heights[1] <= heights[0]:
        raise Unfit("the top is not above the floor", f"{spelled(heights[1])} and {spelled(heights[0])}", "correct the two heights")
    if heights[-1] > rings.MOST_SIDE:
        raise Unfit(f"the top is more than {spelled(rings.MOST_SIDE)} m from 0", spelled(heights[-1]), "correct it: heights are in metres")


def id_of(feature: Feature, options: Options) -> str:
    """Returns the id of the lot of a feature, or the beginning of those of its storeys."""
    value = feature.number if options.number else value_of(feature, options.id, "id")
    told = str(int(value)) if isinstance(value, float) and value.is_integer() else str(value)
    told = options.prefix + told.replace("/", "_") if options.prefix else told
    if not NAME.fullmatch(told + (f".{MOST_STOREYS}" if options.storeys else "")):
        raise Unfit("the id does not fit: it has 1 to 32 of the letters a to z and A to Z, the digits, _, - and ., and a letter is the first "
                    "(--prefix puts letters before it)", ascii(told)[:60])
    return told


# ---- polygons

def polygons_of(_: Feature, geometry: Optional[dict[str, Any]]) -> list[list[grid.Ring]]:
    """Returns the polygons of a geometry, each a list of rings: the outer one, and then its holes. A closed line of a drawing is one."""
    geometry = geometry or {"type": "none at all"}
    kind = geometry["type"]
    if kind == "Polygon":
        found = [geometry["coordinates"]]
    elif kind == "MultiPolygon":
        found = geometry["coordinates"]
    elif kind == "GeometryCollection":
        found = [polygon for part in geometry["geometries"] for polygon in polygons_of(_, part)]
    elif kind == "LineString" and len(geometry["coordinates"]) > 3 and geometry["coordinates"][0] == geometry["coordinates"][-1]:
        found = [[geometry["coordinates"]]]
    else:
        raise Unfit("no polygon and no closed line", kind, "draw it as a polygon")
    if not found or not all(polygon and all(polygon) for polygon in found):
        raise Unfit("no polygon, or one with an empty ring", kind, "remove it, or draw its rings")
    return found


def ring_name(polygon: int, ring: int, count: int) -> str:
    name = f"hole {ring}" if ring else "the outer ring"
    return name if count == 1 else f"{name} of polygon {polygon}"


def crossing(corners: list[Corner]) -> str:
    """Returns where a ring crosses or touches itself, or nothing. Its corners are integers, of which this test is exact."""
    said = explain_validity(Polygon(corners))
    return "" if said == "Valid Geometry" else " ".join(spelled(round(float(number))) for number in re.findall(r"-?[0-9.]+", said)[-2:])


def placed(feature: Feature, origin: Corner) -> list[list[list[Corner]]]:
    """Returns the polygons of a feature in units from the origin."""
    found: list[list[list[Corner]]] = []
    for number, polygon in enumerate(feature.polygons, 1):
        found.append([])
        for place, ring in enumerate(polygon):
            name = ring_name(number, place, len(feature.polygons))
            corners = feature.attempt(lambda _: rings.placed(ring, origin, name))
            if corners:
                found[-1].append(corners)
                where = crossing(corners)
                if where:
                    feature.warned.append(Unfit("a ring crosses or touches itself; it is taken by parity", f"{name} at {where}"))
    return found


# ---- the script

def register_line(_: Feature, name: str, polygons: list[list[list[Corner]]], heights: tuple[int, int]) -> str:
    told = rings.expression(polygons, heights)
    if sum(word in NODES for word in told.split(" ")) > MOST_NODES:
        raise Unfit(f"its expression has more than {MOST_NODES} words", remedy="divide it into two features")
    line = f"register {name} {told}"
    if len(line) > LONG[2]:
        raise Unfit(f"its line has more than {LONG[2]} bytes", remedy="divide it into two features")
    return line


def note(feature: Feature) -> list[str]:
    """Returns the attributes of a feature, as a note that is JSON."""
    told = {name: value for name, value in feature.properties.items() if value is not None}
    line = f"# {json.dumps(told, default=str)}"
    return [line] if told and len(line) <= LONG[2] else []


# The lots of a feature by their ids: the heights of each, and its line.
Lots = dict[str, tuple[int, int, str]]


def lots_of(feature: Feature, origin: Corner, options: Options) -> Lots:
    """Returns the lots of a feature by their ids: the heights of each, and its line."""
    feature.id = feature.attempt(id_of, options) or ""
    heights = heights_of(feature, options)
    known = [height for height in heights if height is not None]
    if len(known) == len(heights):
        feature.attempt(check_heights, known)
    polygons = placed(feature, origin)
    if feature.unfit:
        return {}
    ids = [feature.id] if options.storeys is None else [f"{feature.id}.{storey}" for storey in range(1, len(heights))]
    return {name: (low, high, feature.attempt(register_line, name, polygons, (low, high)))
            for name, low, high in zip(ids, known, known[1:])}


def lots_of_all(features: list[Feature], origin: Corner, options: Options) -> list[Lots]:
    """Returns the lots of each feature; none of one that cannot be registered, or that has the id of a feature before."""
    found: list[Lots] = []
    ids: dict[str, int] = {}
    for feature in features:
        made = lots_of(feature, origin, options)
        taken = [ids[name] for name in made if name in ids]
        if taken:
            feature.unfit.append(Unfit("the id is that of a feature before", f"feature {taken[0]}", OTHER_ID))
        found.append({} if feature.unfit else made)
        ids.update(dict.fromkeys(found[-1], feature.number))
    return found


def see_limits(features: list[Feature], made: list[Lots], program: str) -> usage.Forms:
    """Asks the store `program` for the parts of the lots `made` of features. A feature with a lot that it refuses cannot be registered."""
    placed = [(feature, line) for feature, lots in zip(features, made) for _, _, line in lots.values()]
    found = usage.forms_of([line for _, line in placed], program)
    for place, (feature, _) in enumerate(placed):
        if found.forms and found.forms[place] is None:
            feature.unfit.append(Unfit("the store refuses its form, which meets a limit", found.met.get(place, ""), "divide it into two features"))
    return found


def lines_of(features: list[Feature], made: list[Lots], options: Options) -> list[str]:
    """Returns the lines of the script after its head."""
    lines, sections = [], []
    for feature, lots in zip(features, made):
        if feature.unfit:
            lines.append(f"# left out: {feature.said}: {'; '.join(map(str, feature.unfit))}")
            continue
        lines += [f"# {feature.said}: {warning}" for warning in feature.warned]
        for name, (low, high, line) in lots.items():
            lines += [line] + ([] if options.bare else note(feature))
            sections += [f"section lot {name} {spelled(units(at))}" for at in options.section if low <= units(at) < high]
    return lines + sections


def grouped(said: list[tuple[Feature, Unfit]], count: int) -> Iterator[str]:
    """Yields one line for each cause, with the first features that have it, except one that all have and that is the same of all."""
    causes: dict[str, dict[str, str]] = defaultdict(dict)
    for feature, unfit in said:
        causes[unfit.advice].setdefault(feature.said, unfit.seen)
    for cause, found in causes.items():
        named = [f"{name} ({seen})" if seen else name for name, seen in found.items()]
        told = "; ".join(named[:FEW]) + (" .." if named[FEW:] else "")
        if len(named) == 1:
            yield f"{told}: {cause}"
        else:
            yield f"{len(named)} of {count} features: {cause}" + (f": {told}" if len(named) < count or any(found.values()) else "")


def nothing(unfit: int, count: int, what: str) -> str:
    """Returns the last line of standard error if features of a `what` cannot be registered, so many `unfit` of a `count`."""
    others = ", or leave them out by --leave-out" if unfit < count else ""
    return f"nothing was written: {unfit} of {count} cannot be registered: correct them in the {what}{others}"


def about_coordinates(found: grid.Grid, wanted: grid.Grid) -> str:
    """Returns the note for people on what coordinates are: of a plan in the grid `found`, for a register in the grid `wanted`."""
    says = "# Coordinates are metres from the local origin, heights as in the plan."
    if wanted is None:
        return f"{says} The plan names no grid; its numbers are taken as metres."
    if not grid.code(wanted):
        says += f" The grid is called {wanted.name}."
    if found is not None and found != wanted:
        says += f" Projected from {found.name}."
    # A name may have a line feed.
    return " ".join(says.split())


def notes_of(features: list[Feature], origin: Corner, grids: Sequence[Any]) -> list[str]:
    """Returns the notes at the head of the script: its place, what its coordinates are, and how many were rounded."""
    found, wanted = grids
    east, north = (Decimal(number) / 1000 for number in origin)
    where = Place(east, north, grid.code(wanted) if wanted is not None else None)
    lines = [where.note("none" if wanted is None else "without a number"), about_coordinates(found, wanted)]
    moved, count = rings.rounded(points_of(features))
    return lines + [f"# Rounded to the millimetre: {moved} of {count} coordinates."] * bool(moved)


# ---- reading

def points_of(features: list[Feature]) -> list[grid.Point]:
    return [point for feature in features for polygon in feature.polygons for ring in polygon for point in ring]


def read(path: str, layer: Optional[str]) -> tuple[str, list[Feature], list[str]]:
    """Returns the grid that a plan names, its features, and what is to be said of it."""
    logging.getLogger("fiona").setLevel(logging.CRITICAL)
    for driver in MORE_FORMATS:
        fiona.drvsupport.supported_drivers.setdefault(driver, "r")
    try:
        # Standard input can be read once.
        layers = [] if "/vsistdin/" in path else fiona.listlayers(path)
        with fiona.open(path, layer=layer, KEEP_GEOM_COLUMNS="NO") as source:
            # A geometry that GDAL cannot read is an error of any later call.
            given = source.crs_wkt
            features = [Feature(number, dict(each.properties), each.geometry and each.geometry.__geo_interface__)
                        for number, each in enumerate(source, 1)]
    except (fiona.errors.FionaError, ValueError) as error:
        raise Fault(f"GDAL does not read the plan: {error}", 3, "correct the path, or save the plan in a format that GDAL reads")
    if not features:
        raise Fault("the plan has no feature", 3, "name another layer of the file, if it has one")
    said = [f"the plan has the layers {', '.join(layers)}, of which the first is read: --layer names another"] if len(layers) > 1 and not layer else []
    return given, features, said


def to_register(features: list[Feature], given: str, options: Options) -> tuple[grid.Grid, grid.Grid]:
    """Projects the polygons of features, and gives the grid of the plan and that of the register."""
    found, wanted = grid.grids(given, options.source, options.to, points_of(features))
    projected = grid.projection(found, wanted)
    for feature in features:
        feature.polygons = [[projected(ring) for ring in polygon] for polygon in feature.polygons]
    return found, wanted


def about_limits(features: list[Feature], made: list[Lots], forms: Optional[usage.Forms], size: int) -> list[str]:
    """Returns what is to be said of the limits of the store: of a script with a `size` in bytes and with the lots
    `made` of features that have these `forms`.

    # Errors
    `Fault` if no register has room for them.
    """
    if forms is None:
        return []
    placed = [(feature, line) for feature, lots in zip(features, made) for _, _, line in lots.values()]
    lines = [line for feature, line in placed if not feature.unfit]
    kept = forms._replace(forms=[form for (feature, _), form in zip(placed, forms.forms) if not feature.unfit])
    usage.see_room(lines, kept)
    return [usage.said(lines, kept, size)]


def script_of(path: str, options: Options) -> tuple[int, str, list[str]]:
    """Returns the status, the script, and the lines on standard error."""
    if MISSING:
        raise Fault(f"{MISSING}, and plan needs this package", 5, INSTALL)
    given, features, said = read(path, options.layer)
    for feature in features:
        feature.polygons = feature.attempt(polygons_of, feature.geometry) or []
    if any(len(point) > 2 for point in points_of(features)):
        said.append("points have heights of their own, which are not used")
    grids = to_register(features, given, options)
    points = points_of(features)
    east, north = options.origin or (grid.chosen_origin(points) if points else (0, 0))
    origin = units(Decimal(east)), units(Decimal(north))
    made = lots_of_all(features, origin, options)
    forms = see_limits(features, made, options.program) if options.program else None
    said += grouped([(feature, warning) for feature in features for warning in feature.warned], len(features))
    unfit = [feature for feature in features if feature.unfit]
    told = [*grouped([(feature, cause) for feature in unfit for cause in feature.unfit], len(features))]
    clip = grid.how_to_clip(points, origin, grids[1], path) if points else []
    if unfit and not (options.leave_out and len(unfit) < len(features)):
        return 4, "", said + told + clip + [nothing(len(unfit), len(features), "plan")]
    script = "\n".join(["rp 2", *notes_of(features, origin, grids), *lines_of(features, made, options), ""])
    if len(script) > MOST_SCRIPT:
        raise Fault(f"the script would have more than {MOST_SCRIPT:,} bytes", 4, "divide the plan, and give each part one --origin")
    return int(bool(unfit)), script, said + [f"left out: {line}" for line in told] + clip + about_limits(features, made, forms, len(script))
