"""CityJSON of lots: each a closed solid, or several where it falls into pieces."""
from __future__ import annotations

import json
from collections import defaultdict
from fractions import Fraction
from typing import Any, Iterator, Optional

from . import outline, plane, shape, told
from .gis import attributes, bounded
from .lots import Body, Seen
from .place import Place
from .points import Point, Ring, edges, lowest

# A face is its outer ring and its holes; a shell is a closed surface; a solid is its outer shell and its cavities.
Face = list[Ring]
Shell = list[Face]
Solid = list[Shell]
# Micrometres are fine enough for a corner that is no whole unit.
MILLIMETRES, MICROMETRES = 10**3, 10**6


class Groups:
    """Things of which some hang together, by their places."""

    def __init__(self, count: int):
        self.above = list(range(count))

    def root(self, at: int) -> int:
        while self.above[at] != at:
            at = self.above[at]
        return at

    def join(self, at: int, other: int) -> None:
        self.above[self.root(at)] = self.root(other)


def in_planes(cells: list[shape.Cell]) -> dict[shape.Half, list[tuple[bool, int, Ring]]]:
    """Returns the faces of convex bodies by their planes: on which side the body is, its place, and the polygon."""
    planes = defaultdict(list)
    for at, each in enumerate(cells):
        for half, polygon in each.faces:
            key = lowest(half)
            is_first = next(number for number in key if number) > 0
            planes[key if is_first else shape.turned(key)].append((is_first, at, polygon))
    return planes


def hanging(cells: list[shape.Cell]) -> list[list[shape.Cell]]:
    """Returns convex bodies in groups: bodies of one group are connected by areas that two of them have in common."""
    groups = Groups(len(cells))
    for half, sides in in_planes(cells).items():
        flat = shape.Flattened(half, 1)
        plans = [(is_first, at, flat.there(polygon)[::-1 if is_first else 1]) for is_first, at, polygon in sides]
        for is_first, at, polygon in plans:
            for is_other, other, against in plans:
                if is_first > is_other and groups.root(at) != groups.root(other) and outline.minus(polygon, against) != [polygon]:
                    groups.join(at, other)
    found = defaultdict(list)
    for at, each in enumerate(cells):
        found[groups.root(at)].append(each)
    return list(found.values())


def all_edges(face: Face) -> Iterator[outline.Edge]:
    for ring in face:
        yield from edges(ring)


def shells(cells: list[shape.Cell]) -> Optional[Solid]:
    """Returns the closed surfaces of a group, the outer one first; or None if an edge has more than two faces, as where
    two arms of a body touch in a line."""
    faces = shape.split_rings(shape.facets(cells))
    at_edge = defaultdict(list)
    for number, face in enumerate(faces):
        for edge in all_edges(face):
            at_edge[edge].append(number)
    if any(len(numbers) != 1 for numbers in at_edge.values()):
        return None
    groups = Groups(len(faces))
    for number, face in enumerate(faces):
        for p, q in all_edges(face):
            groups.join(number, at_edge[q, p][0])
    found = defaultdict(list)
    for number, face in enumerate(faces):
        found[groups.root(number)].append(face)
    return sorted(found.values(), key=lambda shell: sum(shape.fan_volume(ring) for face in shell for ring in face), reverse=True)


def pieces(body: Body) -> Iterator[tuple[str, Body, list[Solid]]]:
    """Yields the pieces of a lot, each with a name, as a body, and with its solids: one solid, or one for each of its
    convex parts if one solid is impossible."""
    groups = hanging(body.cells)
    for number, group in enumerate(groups, 1):
        piece = body if len(groups) == 1 else Body(body.label, True, body.layer, body.born, body.origins, group)
        name = body.label if len(groups) == 1 else f"{body.label} {number}"
        whole = shells(group)
        yield name, piece, [whole] if whole else [*filter(None, (shells([each]) for each in group))]


class Vertices:
    """The corners of a city model, each once, as whole numbers of its scale, so many to the metre."""

    def __init__(self, scale: int):
        self.scale = scale
        self.places: dict[tuple[int, ...], int] = {}

    def place(self, point: Point) -> int:
        numbers = tuple(round(Fraction(number, point[3]) * self.scale / 1000) for number in point[:3])
        return self.places.setdefault(numbers, len(self.places))

    def boundaries(self, solid: Solid) -> list[list[list[list[int]]]]:
        return [[[[self.place(point) for point in ring] for ring in face] for face in shell] for shell in solid]

    def geometry(self, solids: list[Solid]) -> dict[str, Any]:
        """Returns a solid, or several solids as a composite solid."""
        found = [self.boundaries(solid) for solid in solids]
        return {"type": "Solid", "lod": "3", "boundaries": found[0]} if len(found) == 1 else {"type": "CompositeSolid", "lod": "3", "boundaries": found}

    def extent(self, origin: list[float]) -> list[float]:
        """Returns the least and the greatest coordinates on the map."""
        return [float(told.decimal(Fraction(end(point[axis] for point in self.places), self.scale) + Fraction(origin[axis]), 6))
                for end in (min, max) for axis in range(3)]


def is_whole(solids: list[Solid]) -> bool:
    return all(point[3] == 1 for solid in solids for shell in solid for face in shell for ring in face for point in ring)


def planes(where: Place, piece: Body, solids: list[Solid]) -> dict[str, list[str]]:
    """Returns the attribute `planes` of a piece that has corners that are no integer units, otherwise nothing: for each
    plane four integers A, B, C and D, so that Ax + By + Cz + D is 0 at its points, in millimetres on the map.
    Corners that are rounded to the micrometre do not tell the planes."""
    if is_whole(solids):
        return {}
    east, north = 1000 * Fraction(where.east), 1000 * Fraction(where.north)
    found = {plane.canonical(half) for each in piece.cells for half in each.halves}
    return {"planes": sorted(" ".join(map(str, plane.whole([a, b, c, d - a * east - b * north]))) for a, b, c, d in found)}


def model(seen: Seen) -> dict[str, Any]:
    """Returns a CityJSON 2.0 model: each piece of a lot is a BuildingUnit, of a Building that stands for its layer.
    Other regions are left out."""
    units = [unit for body in bounded(seen) if body.is_lot for unit in pieces(body)]
    if not units:
        raise seen.without("no lot with an end")
    vertices = Vertices(MILLIMETRES if all(is_whole(solids) for _, _, solids in units) else MICROMETRES)
    objects: dict[str, Any] = {}
    for name, piece, solids in units:
        layer = f"layer {piece.layer}"
        objects.setdefault(layer, {"type": "Building", "attributes": {"layer": piece.layer}, "children": []})["children"].append(name)
        told_of = {**attributes(piece), **planes(seen.place, piece, solids)}
        objects[name] = {"type": "BuildingUnit", "parents": [layer], "attributes": told_of, "geometry": [vertices.geometry(solids)]}
    origin = [float(seen.place.east), float(seen.place.north), 0.0]
    metadata: dict[str, Any] = {"geographicalExtent": vertices.extent(origin)}
    if seen.place.epsg:
        metadata["referenceSystem"] = f"https://www.opengis.net/def/crs/EPSG/0/{seen.place.epsg}"
    return {"type": "CityJSON", "version": "2.0", "transform": {"scale": [1 / vertices.scale] * 3, "translate": origin}, "metadata": metadata,
            "CityObjects": objects, "vertices": [list(point) for point in vertices.places]}


def text(seen: Seen) -> str:
    """Returns the model as a text."""
    return json.dumps(model(seen), separators=(",", ":")) + "\n"
