"""Writes what a line crosses: a table, GeoJSON, the report; and what is said beside these."""
from __future__ import annotations

import json
from fractions import Fraction
from typing import Any, Callable, Iterable, Union

from . import gis, told
from .crosses import Crossing, Result
from .line import Stretch
from .points import Point

HEAD = ("lot", "layer", "along_m", "length_m", "from_x_m", "from_y_m", "from_z_m", "to_x_m", "to_y_m", "to_z_m")


def metres(units: Fraction) -> str:
    """Prints a length, to the micrometre."""
    return told.decimal(units / 1000, 6)


def coordinates(point: Point) -> tuple[str, ...]:
    return tuple(metres(Fraction(number, point[3])) for number in point[:3])


def row(found: Result, each: Crossing) -> tuple[str, ...]:
    """Returns a row of the table: how far from the start of the line the lot begins, the length in it, and both ends."""
    line = found.line
    return (each.lot.id, each.lot.layer, metres(line.length(Fraction(0), each.begin)), metres(line.length(each.begin, each.end)),
            *coordinates(line.point(each.begin)), *coordinates(line.point(each.end)))


def table(found: Result) -> str:
    """Returns the rows as comma-separated values; the head alone if the line crosses no lot."""
    return "".join(",".join(line) + "\n" for line in (HEAD, *(row(found, each) for each in found.crossings)))


def attributes(found: Result, each: Crossing) -> dict[str, Any]:
    line = found.line
    return {"id": each.lot.id, "layer": each.lot.layer, "born": each.lot.born, "along": gis.metres(line.length(Fraction(0), each.begin)),
            "length": gis.metres(line.length(each.begin, each.end))}


def geometry(found: Result, each: Crossing) -> gis.Geometry:
    """Returns what a lot has of the line, with heights: a line, or a point if that is all."""
    points = [gis.on_map(found.place, point) for point in found.line.way(each.begin, each.end)]
    return {"type": "LineString", "coordinates": points} if len(points) > 1 else {"type": "Point", "coordinates": points[0]}


def features(found: Result) -> str:
    """Returns GeoJSON of what lots have of the line."""
    return json.dumps(gis.collection(found.place, [(attributes(found, each), geometry(found, each)) for each in found.crossings])) + "\n"


FORMS: dict[str, Callable[[Result], Union[str, bytes]]] = {"table": table, "lines": features, "report": lambda found: found.run.text}


# ---- what is said

def length(found: Result, stretches: Iterable[Stretch]) -> Fraction:
    return sum((found.line.length(begin, end) for begin, end in stretches), Fraction(0))


def said(found: Result) -> list[str]:
    """Returns the lines for standard error: how many lots, whether the report was checked, what is in no lot, what is not shown."""
    count, whole = len({each.lot.id for each in found.crossings}), found.line.length(Fraction(0), Fraction(found.line.count))
    lines = [f"the line of {told.decimal(whole / 1000, 3)} m crosses {count:,} lot{'s' * (count != 1)}; "
             f"{found.excerpt.said if found.excerpt else found.run.said}"]
    for layer in dict.fromkeys(each.lot.layer for each in found.crossings):
        free = length(found, found.free[layer])
        lines += [f"of the line {told.decimal(free / 1000, 3)} m are in no lot of the layer {layer}"] if free else []
    return lines + unknown(found)


def unknown(found: Result) -> list[str]:
    """Returns a line for each thing that no checked report shows."""
    lines = list(found.run.warnings)
    for layer in found.unshown:
        others = [lot.id for lot in found.unseen if lot.layer == layer]
        lines.append(f"the report does not show that none of the {len(others):,} other lots of the layer {layer} is near the line, {told.few(others)}: "
                     "registering boxes round the line meets a limit, as in a register that is full; the store answered so to `overlap` for each lot")
    outside = [lot for lot in found.unseen if lot.layer not in found.unshown]
    if outside:
        lines.append(f"the extract has the lots near the line; that none of the other {len(outside):,} is near it is the answer of the store alone")
    return lines
