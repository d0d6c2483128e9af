"""Writes a script of version 2 that registers the solids of a model: of CityJSON, or the spaces of IFC. docs/solids.md has the
rules and examples."""
from __future__ import annotations

from dataclasses import dataclass, field
from decimal import Decimal
from fractions import Fraction
from typing import Optional, Sequence

from . import Fault, citymodel, grid, ifc, plan, solid_region
from .command import NAME, spelled
from .corners import Moved, Rules, solid_of
from .limits import MOST_SCRIPT
from .model import Choice, Model, Thing
from .place import Place
from .rings import MOST_CORNER, Unfit, units
from .shape import Half

Origin = tuple[int, int]


@dataclass
class Options(plan.Options):
    """What the words of the command line say; `words` has what each is for."""

    layer: Optional[str] = "layer"
    lod: Optional[str] = None
    kind: Sequence[str] = ()
    planar: Optional[Decimal] = None


@dataclass
class Lot:
    """A lot: its lines, its layer, from where to where it reaches, and the corners that were moved."""

    lines: list[str]
    layer: str
    low: Fraction
    high: Fraction
    moved: list[Moved] = field(default_factory=list)


# ---- the place

def horizontal(named: str) -> grid.Grid:
    """Returns the grid in plan that a model or a word names, or None for metres of no grid.

    # Errors
    `Fault` if it is not in metres, or cannot be looked up.
    """
    if named in ("", grid.METRES):
        return None
    if grid.MISSING:
        raise Fault(f"{grid.MISSING}: the package python3-pyproj is needed to look up the grid {named}; --from {grid.METRES} takes the numbers as "
                    "metres of no grid. Nothing was written.", 5)
    found = grid.named(named)
    wrong = sorted({axis.unit_name for axis in found.axis_info} - {"metre"})
    if wrong:
        raise Fault(f"the model is in the unit {', '.join(wrong)}, of {found.name}, and a register is in metres. Faces that are projected do not stay "
                    f"plane: project the model first, and then --planar. --from {grid.METRES} says that it is in metres. Nothing was written.", 5)
    return found.sub_crs_list[0] if found.is_compound else found


def see_metres(model: Model) -> None:
    """Checks that the numbers of a model that names no grid can be metres, by the rule for plans.

    # Errors
    `Fault` if they may be degrees.
    """
    try:
        grid.see_metres([(float(point[0]), float(point[1])) for thing in model.things for point in thing.points])
    except Fault:
        raise Fault("the model names no grid, and its numbers may be degrees: all are from -180 to 180, and at least half have more than three digits after "
                    f"the point. Nothing was written: --from {grid.METRES} says that they are metres", 5)


def origin_of(model: Model, options: Options) -> Origin:
    """Returns the local origin in units: as given; or that of a model that was made with one, if all points are near enough; or one
    that is chosen as for a plan."""
    if options.origin:
        east, north = map(units, options.origin)
        return east, north
    points = [point for thing in model.things for point in thing.points]
    if model.origin and all(abs(number - begin) * 1000 <= MOST_CORNER for point in points for number, begin in zip(point, model.origin)):
        return int(model.origin[0] * 1000), int(model.origin[1] * 1000)
    if not points:
        return 0, 0
    east, north = grid.chosen_origin([(float(point[0]), float(point[1])) for point in points])
    return 1000 * east, 1000 * north


def notes_of(model: Model, origin: Origin, where: grid.Grid) -> list[str]:
    """Returns the notes at the head of the script: its place, what its coordinates are, and how many were rounded."""
    east, north = (Decimal(number) / 1000 for number in origin)
    place = Place(east, north, grid.code(where) if where is not None else None)
    says = "# Coordinates are metres from the local origin, heights as in the model."
    if where is None:
        says += " The model names no grid; its numbers are taken as metres."
    elif not place.epsg:
        says += f" The grid is called {where.name}."
    numbers = [number for thing in model.things if not thing.planes for point in sorted(set(thing.points)) for number in point]
    moved = sum(number * 1000 % 1 != 0 for number in numbers)
    return [place.note("none" if where is None else "without a number"), " ".join(says.split()),
            *[f"# Rounded to the millimetre: {moved} of {len(numbers)} coordinates."] * bool(moved)]


# ---- lots

def layer_of(thing: Thing) -> str:
    """Returns the layer of a lot: that of its feature, or `base`."""
    layer = "base" if thing.layer is None else str(thing.layer)
    if not NAME.fullmatch(layer):
        raise Unfit("the layer does not fit: it has 1 to 32 of the letters a to z and A to Z, the digits, _, - and ., and a letter is the first",
                    ascii(layer)[:60], "correct the layer, or name another property by --layer")
    return layer


def lot_of(thing: Thing, origin: Origin, model: Model, options: Options) -> Lot:
    """Returns the lot of a feature.

    # Errors
    `Unfit` if a face, a surface or a corner does not do.
    """
    stated: list[Half] = [(a, b, c, d + a * origin[0] + b * origin[1]) for a, b, c, d in thing.planes]
    rules = Rules(origin, stated, model.step * 1000, None if options.planar is None else Fraction(options.planar))
    found = [solid_of(f" of solid {number}" if len(thing.solids) > 1 else "", each, rules) for number, each in enumerate(thing.solids, 1)]
    operands = [operand for each in found for operand in each.operands]
    lines = solid_region.lines(thing.id, operands)
    return Lot(lines, layer_of(thing), min(each.low for each in found), max(each.high for each in found), [move for each in found for move in each.moved])


def moved_note(lot: Lot, count: int) -> list[str]:
    """Returns the note that names the corners that were moved."""
    if not lot.moved:
        return []
    text = "; ".join(f"{move.at} by {move.far}" for move in lot.moved)
    return [f"# Moved to make planes whole, in mm: {len(lot.moved)} of {count} corners, by at most {lot.moved[0].far}: {text}"]


def lines_of(model: Model, origin: Origin, options: Options) -> list[str]:
    """Returns the lines of the script after its head."""
    lines: list[str] = []
    sections: list[str] = []
    ids: dict[str, int] = {}
    layer = "base"
    for thing in model.things:
        thing.id = thing.attempt(plan.id_of, options) or ""
        lot = None if thing.unfit else thing.attempt(lot_of, origin, model, options)
        if lot and thing.id in ids:
            thing.unfit.append(Unfit("the id is that of a feature before", f"feature {ids[thing.id]}", plan.OTHER_ID))
        if thing.unfit or not lot:
            lines.append(f"# left out: {thing.said}: {'; '.join(map(str, thing.unfit))}")
            continue
        ids[thing.id] = thing.number
        lines += [] if lot.layer == layer else [f"layer {lot.layer}"]
        layer = lot.layer
        lines += moved_note(lot, len(set(thing.points))) + lot.lines + ([] if options.bare else plan.note(thing))
        if lot.moved:
            thing.warned.append(Unfit("corners were moved to make planes whole", f"{len(lot.moved)}, by at most {lot.moved[0].far} mm"))
        sections += [f"section lot {thing.id} {spelled(units(at))}" for at in options.section if lot.low <= units(at) < lot.high]
    return lines + sections


# ---- the script

def read(text: bytes, options: Options) -> Model:
    """Reads a model of the kind that its first bytes show.

    # Errors
    `Fault` if it is of none, or has no feature.
    """
    choice = Choice(options.id, options.layer or "layer", options.lod, options.kind)
    if ifc.is_model(text):
        found = ifc.read(text, choice)
    elif citymodel.is_model(text):
        found = citymodel.read(text, choice)
    else:
        raise Fault("the model is neither CityJSON nor IFC", 3, "export it as one of the two")
    if not found.things:
        raise Fault("the model has no feature with a solid", 3, "export it with solids, or name another --kind")
    return found


def script_of(text: bytes, options: Options) -> tuple[int, str, list[str]]:
    """Returns the status, the script, and the lines on standard error."""
    model = read(text, options)
    count = len(model.things)
    where = horizontal(options.source or model.grid)
    if not (options.source or model.grid):
        see_metres(model)
    origin = origin_of(model, options)
    lines = lines_of(model, origin, options)
    said = model.said + [*plan.grouped([(thing, warning) for thing in model.things for warning in thing.warned], count)]
    unfit = [thing for thing in model.things if thing.unfit]
    told = [*plan.grouped([(thing, cause) for thing in unfit for cause in thing.unfit], count)]
    if unfit and not (options.leave_out and len(unfit) < count):
        return 4, "", said + told + [plan.nothing(len(unfit), count, "model")]
    script = "\n".join(["rp 2", *notes_of(model, origin, where), *lines, ""])
    if len(script) > MOST_SCRIPT:
        raise Fault(f"the script would have more than {MOST_SCRIPT:,} bytes", 4, "divide the model, and give each part one --origin")
    return int(bool(unfit)), script, said + [f"left out: {line}" for line in told]
