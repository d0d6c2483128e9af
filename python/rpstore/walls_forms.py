"""Writes what lots have in common with those that touch them: a table, GeoJSON; and what is said beside these."""
from __future__ import annotations

import functools
import json
from collections import Counter
from fractions import Fraction
from typing import Any, Iterator

from . import gis, told, touch
from .place import Place
from .points import Point
from .walls import Pair, Result

HEAD = ("lot", "other", "layer", "meets_at", "wall_m2", "edge_m")
# The properties and the geometry of a feature.
Feature = tuple[dict[str, Any], gis.Geometry]


def row(pair: Pair) -> tuple[str, ...]:
    edge = told.decimal(pair.contact.edge / 1000, 6) if pair.contact.kind == "edge" else ""
    return pair.lot.label, pair.other.label, pair.lot.layer, pair.contact.kind, told.decimal(pair.contact.wall / 10**6, 6), edge


def table(found: Result) -> str:
    """Returns the rows as comma-separated values; the head alone if no two lots touch."""
    return "".join(",".join(line) + "\n" for line in (HEAD, *map(row, found.pairs)))


def said(found: Result) -> list[str]:
    """Returns the lines for standard error: how many pairs of each kind, whether the report was checked, what is not known."""
    kinds = Counter(pair.contact.kind for pair in found.pairs)
    counts = ", ".join(f"{kinds[kind]:,} {kind}{'s' * (kinds[kind] != 1)}" for kind in ("wall", "edge", "corner"))
    lines = [f"{counts}; {found.excerpt.said if found.excerpt else found.run.said}", *found.run.warnings]
    if found.excerpt:
        lines.append("the extract has these lots and those that touch them; that no other lot touches them is the answer of the store alone")
    if found.limited:
        lines.append(f"a limit of the store is met for {told.few(found.limited)}: what touches these lots is not known; ask for others by --lot")
    return lines


# ---- features

def attributes(pair: Pair, points: list[Point], area: Fraction = Fraction(0), length: Fraction = Fraction(0)) -> dict[str, Any]:
    """Returns the properties of a wall, an edge or a corner with these corner `points`."""
    heights = [Fraction(point[2], point[3]) for point in points]
    return {"lot": pair.lot.label, "other": pair.other.label, "layer": pair.lot.layer, "meets_at": pair.contact.kind, "area": gis.square_metres(area),
            "length": gis.metres(length), "base": gis.metres(min(heights)), "height": gis.metres(max(heights))}


def walls(pair: Pair, place: Place) -> Iterator[Feature]:
    """Yields each wall of a pair as a polygon, with its area as it lies."""
    placed = functools.partial(gis.on_map, place)
    for half, outer, holes in touch.outlines(pair.contact.walls):
        area = touch.area(half, outer) - sum(touch.area(half, hole) for hole in holes)
        yield attributes(pair, outer, area=area), {"type": "Polygon", "coordinates": [gis.closed(ring, placed) for ring in (outer, *holes)]}


def edges(pair: Pair, place: Place) -> Iterator[Feature]:
    """Yields each edge of a pair as a line, with its length."""
    for ends in touch.joined(pair.contact.edges):
        length = touch.distance(*ends)
        yield attributes(pair, list(ends), length=length), {"type": "LineString", "coordinates": [gis.on_map(place, point) for point in ends]}


def corners(pair: Pair, place: Place) -> Iterator[Feature]:
    """Yields each corner of a pair as a point."""
    for point in sorted(pair.contact.corners):
        yield attributes(pair, [point]), {"type": "Point", "coordinates": gis.on_map(place, point)}


KINDS = {"wall": walls, "edge": edges, "corner": corners}


def features(found: Result, place: Place) -> str:
    """Returns GeoJSON with a feature for each wall, for each edge of lots that have no wall in common, and for each corner of lots that
    have no edge in common."""
    return json.dumps(gis.collection(place, [each for pair in found.pairs if pair.contact.kind in KINDS
                                             for each in KINDS[pair.contact.kind](pair, place)])) + "\n"
