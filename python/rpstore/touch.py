"""What two bodies that share no volume have in common: polygons of walls, segments of edges, corners.

Points, areas in a plan and squares of lengths are exact. The area of a slanted wall and the length of an edge are square roots,
which are taken to forty digits after the point.
"""
from __future__ import annotations

from dataclasses import dataclass, field
from fractions import Fraction
from itertools import product
from math import isqrt
from typing import Any, Iterable, Iterator

from . import outline, shape
from .lots import Body
from .points import Box, Point, Ring, clipped, lowest

DIGITS = 10**40


def root(number: Fraction) -> Fraction:
    """Returns the square root of a `number`, less than 10^-40 too small."""
    return Fraction(isqrt(number.numerator * DIGITS**2 // number.denominator), DIGITS)


def area(half: shape.Half, ring: Ring) -> Fraction:
    """Returns the area of a `ring` in the plane of a half-space."""
    flat = shape.Flattened(half, 1)
    return abs(outline.area(flat.there(ring))) * root(Fraction(sum(number**2 for number in half[:3]), half[flat.axis] ** 2))


def distance(p: Point, q: Point) -> Fraction:
    return root(sum(((Fraction(a, p[3]) - Fraction(b, q[3])) ** 2 for a, b in zip(p[:3], q[:3])), Fraction(0)))


@dataclass
class Contact:
    """What two bodies have in common: the polygons of walls, which share no area, each with the half-space of its plane; segments of
    edges, of which some may share a length; and points."""

    walls: list[tuple[shape.Half, Ring]] = field(default_factory=list)
    edges: set[tuple[Point, Point]] = field(default_factory=set)
    corners: set[Point] = field(default_factory=set)

    @property
    def kind(self) -> str:
        """Returns the greatest kind of contact: "wall", else "edge", else "corner", else "nothing"."""
        return "wall" if self.walls else "edge" if self.edges else "corner" if self.corners else "nothing"

    @property
    def wall(self) -> Fraction:
        """Returns the area of the walls, in square units."""
        return sum((area(half, ring) for half, ring in self.walls), Fraction(0))

    @property
    def edge(self) -> Fraction:
        """Returns the length of the edges, in units, or 0 if there is a wall: its own edges are among them."""
        return Fraction(0) if self.walls else sum((distance(p, q) for p, q in joined(self.edges)), Fraction(0))


def joined(segments: Iterable[tuple[Point, Point]]) -> Iterator[tuple[Point, Point]]:
    """Yields segments that share no length and have together what `segments` have."""
    lines: dict[shape.Line, list[Any]] = {}
    for p, q in segments:
        line = shape.line_in_space(p, q)
        lines.setdefault(line, []).append(tuple(sorted((shape.place_along(line, point), point) for point in (p, q))))
    for ends in lines.values():
        begin, end = min(ends)
        for first, last in sorted(ends):
            if first > end:
                yield begin[1], end[1]
                begin, end = first, last
            end = max(end, last)
        yield begin[1], end[1]


def boxes_touch(one: Box, other: Box) -> bool:
    """Returns whether two boxes have a point in common, be it of their boundaries."""
    return all(low <= most and least <= high for low, high, least, most in zip(*one, *other))


def within(ring: Ring, other: shape.Cell) -> Ring:
    """Returns what a convex polygon of space has in a body and its boundary: a polygon, the ends of a segment, a point or nothing."""
    for half in other.halves:
        values = [shape.value(half, point) for point in ring]
        if min(values) < 0:
            ring = list(dict.fromkeys(clipped(ring, values)))
        if not ring:
            return []
    return ring


def outlines(walls: Iterable[tuple[shape.Half, Ring]]) -> Iterator[tuple[shape.Half, Ring, list[Ring]]]:
    """Yields the outlines of polygons that share no area, each with the half-space of its plane: an outer ring and its holes. Polygons
    of one plane that have an edge in common have one outline."""
    planes: dict[shape.Half, list[Ring]] = {}
    for half, ring in walls:
        planes.setdefault(lowest(half), []).append(ring)
    for half, rings in planes.items():
        # The rings go round counterclockwise seen from outside the half-space.
        flat = shape.Flattened(half, -1)
        for outer, holes in outline.outlines([flat.there(ring) for ring in rings]):
            yield half, flat.back(outer), list(map(flat.back, holes))


def is_on_a_line(ring: Ring) -> bool:
    return len(ring) < 3 or len({shape.line_in_space(ring[0], point) for point in ring[1:]}) == 1


def contact_of(one: Body, other: Body) -> Contact:
    """Returns what two bodies that share no volume have in common."""
    found = Contact()
    for mine, theirs in product(one.cells, other.cells):
        if not boxes_touch(mine.box, theirs.box):
            continue
        # Two convex bodies that share no volume meet in one convex set on the boundary of both. It lies in a face of `mine`; what
        # it has in other faces is an edge or a corner of it.
        for half, polygon in mine.faces:
            ring = within(polygon, theirs)
            if not is_on_a_line(ring):
                found.walls.append((half, ring))
            elif len(ring) > 1:
                line = shape.line_in_space(ring[0], ring[1])
                ends = sorted(ring, key=lambda point: shape.place_along(line, point))
                found.edges.add((ends[0], ends[-1]))
            elif ring:
                found.corners.add(ring[0])
    return found
