"""Writes what a region meets: a table, GeoJSON, CityJSON, a page, the report; and what is said beside these."""
from __future__ import annotations

import json
from dataclasses import replace
from fractions import Fraction
from typing import Any, Callable, Iterator, Union

from . import Fault, city, gis, told, view
from .lots import Body, Seen
from .meets import TOUCHES, Meeting, Result
from .place import Place

HEAD = ("lot", "layer", "relation", "from_m", "to_m", "area_m2", "volume_m3", "lot_volume_m3")


def cubic_metres(body: Body) -> str:
    """Prints a volume, to the cubic millimetre; nothing if the body reaches the end of the domain."""
    return told.decimal(body.volume / 10**9, 9) if body.is_bounded else ""


def row(each: Meeting) -> tuple[str, ...]:
    """Returns a row of the table: of what is in common the heights, the area in plan and the volume, and the volume of the lot."""
    head = each.lot.id, each.lot.layer, each.relation
    whole = cubic_metres(each.whole) if each.whole else ""
    if each.relation == TOUCHES:
        return (*head, "", "", "", "0.000000000", whole)
    if each.common is None or not each.common.is_bounded:
        return (*head, "", "", "", "", whole)
    low, high = (told.decimal(Fraction(end[2]) / 1000, 3) for end in each.common.box)
    return (*head, low, high, told.decimal(each.common.area / 10**6, 6), cubic_metres(each.common), whole)


def table(found: Result) -> str:
    """Returns the rows as comma-separated values; the head alone if the region meets no lot."""
    return "".join(",".join(line) + "\n" for line in (HEAD, *map(row, found.meetings)))


def commons(found: Result) -> Iterator[Body]:
    """Yields what each lot has of the region, under the lot's id and layer."""
    return (each.common for each in found.meetings if each.common)


def seen(found: Result, bodies: list[Body]) -> Seen:
    """Returns `bodies` as what was seen.

    # Errors
    `Fault` if none of them ends within the domain.
    """
    if not any(body.is_bounded for body in bodies):
        raise Fault("the region meets no lot with an end, so there is nothing to draw. Nothing was written.")
    return Seen(bodies, [], found.place, 0, found.run.check, found.version, found.run.warnings)


def model(found: Result) -> str:
    """Returns CityJSON of what each lot has of the region."""
    return city.text(seen(found, list(commons(found))))


def page(found: Result) -> str:
    """Returns a page with the lots that share a point with the region, in which what they have of it shines through."""
    inner = [replace(body, is_lot=False, layer=f"{body.layer}, in common") for body in commons(found)]
    return view.page(seen(found, [each.whole for each in found.meetings if each.whole] + inner), "What a region meets")


def attributes(each: Meeting) -> dict[str, Any]:
    """Returns the properties of a feature. Numbers are those of what is in common; None if the lot only touches the region."""
    common = gis.attributes(each.common) if each.common and each.common.is_bounded else {}
    numbers = {name: common.get(name) for name in ("base", "height", "area", "volume")}
    whole = gis.cubic_metres(each.whole.volume) if each.whole and each.whole.is_bounded else None
    return {"id": each.lot.id, "layer": each.lot.layer, "relation": each.relation, "born": each.lot.born, **numbers, "lot_volume": whole}


def features(found: Result, geometry: Callable[[Place, Body], gis.Geometry]) -> str:
    """Returns GeoJSON of what each lot has of the region. A lot that only touches it has no geometry."""
    def drawn(each: Meeting) -> Union[gis.Geometry, None]:
        return geometry(found.place, each.common) if each.common and each.common.is_bounded else None

    return json.dumps(gis.collection(found.place, [(attributes(each), drawn(each)) for each in found.meetings])) + "\n"


FORMS: dict[str, Callable[[Result], Union[str, bytes]]] = {
    "table": table, "lots": lambda found: features(found, gis.covered), "faces": lambda found: features(found, gis.boundary), "city": model,
    "view": page, "report": lambda found: found.run.text,
}


# ---- what is said

def in_no_lot(found: Result) -> dict[str, Fraction]:
    """Returns for each layer the volume of the region that is in none of its lots; for no layer if the region has no end or what it
    meets is not known. Lots of one layer share no point."""
    if found.region is None or not found.region.is_bounded or found.limited or found.unshown:
        return {}
    layers = dict.fromkeys(each.lot.layer for each in found.meetings)
    return {layer: found.region.volume - sum(each.common.volume for each in found.meetings if each.common and each.lot.layer == layer) for layer in layers}


def count_of(found: Result) -> str:
    beside = sum(each.relation == TOUCHES for each in found.meetings)
    count = len(found.meetings) - beside
    shared = f"{count:,} lot{'s share' if count != 1 else ' shares'} a point with the region"
    return shared + (f", {beside:,} more only touch{'es' if beside == 1 else ''} it" if beside else "")


def what_report(found: Result) -> str:
    """Says whether the report is checked, and of what it is."""
    return found.excerpt.said if found.excerpt else found.run.said


def said(found: Result) -> list[str]:
    """Returns the lines for standard error: how many lots, whether the report was checked, what is in no lot, what is not known."""
    lines = [f"{count_of(found)}; {what_report(found)}"]
    lines += [f"of the region {told.cubic_metres(volume)} m3 are in no lot of the layer {layer}" for layer, volume in in_no_lot(found).items() if volume]
    return lines + unknown(found)


def said_of_rights(found: Result, lot: str) -> list[str]:
    """Returns the lines for standard error beside the lots that lie on a `lot`."""
    count = len(found.meetings)
    return [f"{count:,} lot{'s lie' if count != 1 else ' lies'} on {lot}; {what_report(found)}", *unknown(found)]


def unknown(found: Result) -> list[str]:
    """Returns a line for each thing that is not known, or not shown by a checked report."""
    lines = list(found.run.warnings)
    if found.limited:
        lines.append(f"a limit of the store is met for {told.few(found.limited)}: whether these lots meet the region, or what they have of it, is not "
                     "known; ask for parts of the region")
    for layer in found.unshown:
        others = [lot.id for lot in found.unseen if lot.layer == layer]
        lines.append(f"the report does not show that the region meets none of the {len(others):,} other lots of the layer {layer}, {told.few(others)}: "
                     "registering the region there meets a limit, as in a register that is full; the store answered so to `overlap` for each lot")
    if found.untouched:
        lines.append(f"which lots of the layer {', '.join(found.untouched)} only touch the region is not known: `neighbours` meets a limit")
    outside = [lot for lot in found.unseen if lot.layer not in found.unshown]
    if outside:
        lines.append(f"the extract has the lots near the region; that the region meets none of the other {len(outside):,} is the answer of the store alone")
    return lines
