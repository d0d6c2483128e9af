"""Shapes of IFC that are made of others by `IfcBooleanResult` and `IfcBooleanClippingResult`: exact, by convex parts.

What is taken away may be a solid, a half-space, or one within a polygon. Corners of the result are rational; they are rounded
to the millimetre later, as all corners are.
"""
from __future__ import annotations

from fractions import Fraction
from typing import TYPE_CHECKING, Any, Callable, Iterator, Optional

from . import city, plane, shape
from .points import Point
from .rings import Unfit
from .shape import Cell, Half
from .solid import Face, convex_parts, homogeneous, pieces_of, trapezoids
from .step import Enumeration

if TYPE_CHECKING:
    from .ifc import Reader

RESULTS = ("IFCBOOLEANRESULT", "IFCBOOLEANCLIPPINGRESULT")
HALF_SPACES = ("IFCHALFSPACESOLID", "IFCPOLYGONALBOUNDEDHALFSPACE")
Vector = tuple[Fraction, ...]
Surface = list[list[list[Vector]]]
# What is taken away or kept: convex, each as its half-spaces.
Tools = list[list[Half]]
# Reads the surfaces of a solid that is no result, by its type and its values.
Read = Callable[[str, list[Any]], list[Surface]]


def faces_of(surfaces: list[Surface]) -> Iterator[Face]:
    """Yields the faces of a solid with their planes, which may have any numbers.

    # Errors
    `Unfit` if a face is not plane.
    """
    for number, rings in enumerate((face for surface in surfaces for face in surface), 1):
        found = [[homogeneous(point) for point in ring] for ring in rings]
        half = plane.through(found[0][0], plane.normal(found[0]))
        if any(shape.value(half, corner) for ring in found for corner in ring):
            raise Unfit("a face of a solid that is clipped is not plane", f"face {number}")
        yield Face(f"face {number}", found, shape.turned(half))


def cells_of(reader: Reader, reference: Any, read: Read) -> list[Cell]:
    """Returns a solid as convex parts that share no volume."""
    name, values = reader.get(reference)
    if name not in RESULTS:
        faces = list(faces_of(read(name, values)))
        return convex_parts("a solid that is clipped", faces, [piece for face in faces for piece in pieces_of(face)])
    word, cells = values[0], cells_of(reader, values[1], read)
    if word == Enumeration("UNION"):
        return shape.apart([*cells, *cells_of(reader, values[2], read)])
    tools = tools_of(reader, values[2], read)
    if word == Enumeration("DIFFERENCE"):
        return without(cells, tools)
    if word == Enumeration("INTERSECTION"):
        return [part for cell in cells for tool in tools for part in kept(cell, tool)]
    raise Unfit("solids are joined in a way that is not known", word.word if isinstance(word, Enumeration) else ascii(word)[:60])


def tools_of(reader: Reader, reference: Any, read: Read) -> Tools:
    """Returns the half-spaces of each convex part of an operand that is subtracted or intersected."""
    name, values = reader.get(reference)
    if name not in HALF_SPACES:
        return [cell.halves for cell in cells_of(reader, reference, read)]
    place = reader.frame(reader.need(values[0], "IFCPLANE")[0])
    away = place.axes[2] if values[1] == Enumeration("F") else tuple(-number for number in place.axes[2])
    half = plane.through(homogeneous(place.origin), away)
    return [[half]] if len(values) < 4 else [[half, *sides] for sides in columns(reader, values[2], values[3])]


def columns(reader: Reader, position: Any, boundary: Any) -> Iterator[list[Half]]:
    """Yields the half-spaces round each convex piece of a polygon, upwards and downwards of its place without an end."""
    place = reader.frame(position)
    for polygon in trapezoids([[homogeneous(point[:2]) for point in reader.curve(boundary)]]):
        corners = [place.point((Fraction(x, w), Fraction(y, w), Fraction(0))) for x, y, w in polygon]
        yield [plane.through(homogeneous(p), inwards(place.axes[2], p, q)) for p, q in zip(corners, corners[1:] + corners[:1])]


def inwards(up: Vector, p: Vector, q: Vector) -> Vector:
    """Returns the direction to the left of the way from one corner to another, seen from above."""
    x, y, z = (b - a for a, b in zip(p, q))
    return up[1] * z - up[2] * y, up[2] * x - up[0] * z, up[0] * y - up[1] * x


def kept(cell: Cell, tool: list[Half]) -> list[Cell]:
    """Returns what a part has in all half-spaces of a tool."""
    body = cell.cut(tool[0])
    for half in tool[1:]:
        body = body and body.cut(half)
    return [body] if body else []


def without(cells: list[Cell], tools: Tools) -> list[Cell]:
    """Returns what parts have outside tools."""
    for tool in tools:
        cells = [piece for cell in cells for taken in [kept(cell, tool)] for piece in (cell.minus(taken[0]) if taken else [cell])]
    return cells


def place_of(point: Point) -> Vector:
    return tuple(Fraction(number, point[3]) for number in point[:3])


def surfaces_of(reader: Reader, reference: Any, read: Read) -> Iterator[list[Surface]]:
    """Yields the surfaces of each solid that a result is: those of one for what is connected by areas.

    # Errors
    `Unfit` if a solid does not do, or nothing is left.
    """
    cells = cells_of(reader, reference, read)
    if not cells:
        raise Unfit("nothing is left of a solid that is clipped")
    for group in city.hanging(cells):
        whole = city.shells(group)
        solids: list[Optional[city.Solid]] = [whole] if whole else [city.shells([each]) for each in group]
        for solid in solids:
            yield [[[list(map(place_of, ring)) for ring in face] for face in surface] for surface in solid or []]
