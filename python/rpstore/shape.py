"""Convex bodies, exact: corners, faces, volumes, and what several have together. Nothing here is rounded.

A half-space (A, B, C, D) has the points where Ax + By + Cz + Dw is not below 0: the boundary is of no account to an area or
a volume. The polygons of a boundary go round counterclockwise, seen from outside the body.
"""
from __future__ import annotations

from collections import defaultdict
from fractions import Fraction
from functools import cached_property
from itertools import product
from typing import Iterable, Iterator, NamedTuple, Optional

from . import outline
from .points import Box, Number, Point, Ring, box_of, clipped, edges, lowest, overlap, ratio

Half = tuple[int, ...]
# A line of space: its direction, and its moment.
Line = tuple[Point, tuple[Number, ...]]
# The domain goes from -EDGE to EDGE on each axis.
EDGE = 2**24


def value(half: Half, point: Point) -> int:
    return half[0] * point[0] + half[1] * point[1] + half[2] * point[2] + half[3] * point[3]


def turned(half: Half) -> Half:
    """Returns the half-space on the other side."""
    return tuple(-number for number in half)


def determinant(p: Point, q: Point, r: Point) -> int:
    return p[0] * (q[1] * r[2] - q[2] * r[1]) - p[1] * (q[0] * r[2] - q[2] * r[0]) + p[2] * (q[0] * r[1] - q[1] * r[0])


def fan_volume(polygon: Ring) -> Fraction:
    """Returns the volume, with its sign, between the origin and a `polygon` of space."""
    first = polygon[0]
    return Fraction(sum(ratio(determinant(first, q, r), first[3] * q[3] * r[3]) for q, r in zip(polygon[1:], polygon[2:]))) / 6


class Cell:
    """A convex body with a volume. `faces` are half-spaces, each with the polygon in which it bounds the body."""

    def __init__(self, faces: list[tuple[Half, Ring]]):
        self.faces = faces

    @property
    def halves(self) -> list[Half]:
        return [half for half, _ in self.faces]

    @cached_property
    def points(self) -> set[Point]:
        return {point for _, polygon in self.faces for point in polygon}

    @cached_property
    def box(self) -> Box:
        return box_of(list(self.points))

    @property
    def is_bounded(self) -> bool:
        """Returns whether no face lies in the boundary of the domain."""
        return all(sum(map(bool, half[:3])) > 1 or abs(half[3]) != EDGE * max(abs(number) for number in half[:3]) for half in self.halves)

    @property
    def volume(self) -> Fraction:
        return sum((fan_volume(polygon) for _, polygon in self.faces), Fraction(0))

    def cut(self, half: Half) -> Optional[Cell]:
        """Returns what the body has in a half-space, or None if that has no volume."""
        values = {point: value(half, point) for point in self.points}
        if min(values.values()) >= 0:
            return self
        if max(values.values()) <= 0:
            return None
        faces: list[tuple[Half, Ring]] = []
        after: dict[Point, Point] = {}
        for face, polygon in self.faces:
            at = [values[point] for point in polygon]
            if max(at) <= 0:
                continue
            kept = clipped(polygon, at) if min(at) < 0 else polygon
            faces.append((face, kept))
            # The new face has each edge that lies in its plane, the other way round.
            after.update((q, p) for p, q in edges(kept) if values.get(p, 0) == 0 == values.get(q, 0))
        cap = [next(iter(after))]
        while after[cap[-1]] != cap[0]:
            cap.append(after[cap[-1]])
        return Cell([*faces, (half, cap)])

    def minus(self, other: Cell) -> list[Cell]:
        """Returns the points of the body outside another body: bodies that share no volume."""
        left: list[Cell] = []
        inside: Optional[Cell] = self
        for half in other.halves:
            if not inside:
                return [self]
            outside = inside.cut(turned(half))
            if outside:
                left.append(outside)
            inside = inside.cut(half)
        return left if inside else [self]


def sides_of(halves: Iterable[Half]) -> tuple[list[list[Half]], list[Half]]:
    """Returns the half-spaces that bound a part from below and from above on each axis, those of the domain where no
    other is narrower; and the ones that are not upright or level."""
    sides = [[tuple(sign * (at == axis) for at in range(3)) + (EDGE,) for sign in (1, -1)] for axis in range(3)]
    others = []
    for half in halves:
        axes = [axis for axis in range(3) if half[axis]]
        if len(axes) != 1:
            others.append(half)
            continue
        [axis] = axes
        known = sides[axis][half[axis] < 0]
        if half[3] * abs(known[axis]) < known[3] * abs(half[axis]):
            sides[axis][half[axis] < 0] = half
    return sides, others


def brick(sides: list[list[Half]]) -> Optional[Cell]:
    """Returns the box between two half-spaces on each axis, or None if it has no volume."""
    if any(low[3] * -high[axis] + high[3] * low[axis] <= 0 for axis, (low, high) in enumerate(sides)):
        return None
    # Where each half-space ends on its axis, as a quotient.
    ends = [((-low[3], low[axis]), (high[3], -high[axis])) for axis, (low, high) in enumerate(sides)]
    corners = {}
    for at in product((0, 1), repeat=3):
        (x, a), (y, b), (z, c) = (ends[axis][at[axis]] for axis in range(3))
        corners[at] = lowest((x * b * c, y * a * c, z * a * b, a * b * c))
    faces = []
    for axis, end in product(range(3), (0, 1)):
        # Round a face, seen from outside: the next axis comes before the one behind it at the upper end.
        turns = [(0, 0), (1, 0), (1, 1), (0, 1)] if end else [(0, 0), (0, 1), (1, 1), (1, 0)]
        places = ({axis: end, (axis + 1) % 3: one, (axis + 2) % 3: two} for one, two in turns)
        faces.append((sides[axis][end], [corners[at[0], at[1], at[2]] for at in places]))
    return Cell(faces)


def cell(halves: Iterable[Half]) -> Optional[Cell]:
    """Returns the body of a part that has these half-spaces, or None if it has no volume."""
    sides, others = sides_of(halves)
    body = brick(sides)
    for half in others:
        body = body and body.cut(half)
    return body


def apart(cells: Iterable[Cell]) -> list[Cell]:
    """Returns bodies that share no volume and have together what `cells` have: parts of an `or` may overlap."""
    found: list[Cell] = []
    for each in cells:
        left = [each]
        for other in list(found):
            left = [piece for body in left for piece in (body.minus(other) if overlap(body.box, other.box) else [body])]
        found += left
    return found


def volume(cells: Iterable[Cell]) -> Fraction:
    """Returns the volume of bodies that share none."""
    return sum((each.volume for each in cells), Fraction(0))


# ---- the boundary of bodies

class Flattened:
    """The plane of a half-space looked at as a plan, from the side to which `sign` times (A, B, C) points: the axis along which
    it is steepest is left out."""

    def __init__(self, half: Half, sign: int):
        self.half = half
        self.axis = max(range(3), key=lambda axis: abs(half[axis]))
        one, two = (self.axis + 1) % 3, (self.axis + 2) % 3
        self.axes = (one, two) if half[self.axis] * sign > 0 else (two, one)

    def there(self, ring: Ring) -> Ring:
        """Returns the `ring` of the plane in the plan."""
        one, two = self.axes
        return [lowest((point[one], point[two], point[3])) for point in ring]

    def back(self, ring: Ring) -> Ring:
        """Returns the `ring` of the plan in the plane."""
        return list(map(self.over, ring))

    def over(self, point: Point) -> Point:
        (one, two), scale = self.axes, self.half[self.axis]
        found = [0, 0, 0, scale * point[2]]
        found[one], found[two] = scale * point[0], scale * point[1]
        found[self.axis] = -(self.half[one] * point[0] + self.half[two] * point[1] + self.half[3] * point[2])
        return lowest(found if found[3] > 0 else [-number for number in found])


class Facet(NamedTuple):
    """A piece of a boundary in one plane: its half-space, which holds the body beside it; its convex pieces; its outer ring and
    its holes, which go round the other way."""

    half: Half
    pieces: list[Ring]
    outer: Ring
    holes: list[Ring]

    @property
    def rings(self) -> list[Ring]:
        return [self.outer, *self.holes]


def planes_of(cells: Iterable[Cell]) -> dict[Half, tuple[list[Ring], list[Ring]]]:
    """Returns the planes in which `cells` have faces. A plane is named by one of its two half-spaces, and has the
    polygons of the bodies that lie in the other one, and of those that lie in it."""
    planes: defaultdict[Half, tuple[list[Ring], list[Ring]]] = defaultdict(lambda: ([], []))
    for each in cells:
        for half, polygon in each.faces:
            key = lowest(half)
            is_named = next(number for number in key if number) > 0
            planes[key if is_named else turned(key)][is_named].append(polygon)
    return planes


def facets_of(half: Half, mine: list[Ring], others: list[Ring]) -> Iterator[Facet]:
    """Yields the boundary in the plane of a half-space: of bodies that lie in it, with the faces `mine`, what bodies on
    the other side, with the faces `others`, do not touch."""
    if len(mine) == 1 and not others:
        yield Facet(half, mine, mine[0], [])
        return
    flat = Flattened(half, -1)
    against = [flat.there(other)[::-1] for other in others]
    pieces = outline.without(map(flat.there, mine), [(other, box_of(other)) for other in against])
    for outer, holes in outline.outlines(pieces) if pieces else []:
        own = [piece for piece in pieces if len(pieces) == 1 or outline.is_of(piece, outer, holes)]
        yield Facet(half, list(map(flat.back, own)), flat.back(outer), list(map(flat.back, holes)))


def facets(cells: list[Cell]) -> list[Facet]:
    """Returns the boundary of the union of bodies that share no volume: what two of the bodies have in common is omitted."""
    if len(cells) == 1:
        return [Facet(half, [polygon], polygon, []) for half, polygon in cells[0].faces]
    return [facet for half, (below, above) in planes_of(cells).items()
            for facet in (*facets_of(turned(half), below, above), *facets_of(half, above, below))]


def footprint(found: Iterable[Facet]) -> list[Ring]:
    """Returns what a body with the boundary `found` covers in plan, as convex polygons that share no area."""
    # Seen from below they go round counterclockwise, so from above they are turned.
    return outline.apart([lowest((x, y, w)) for x, y, _, w in piece[::-1]] for facet in found if facet.half[2] > 0 for piece in facet.pieces)


# ---- edges of boundaries

def line_in_space(p: Point, q: Point) -> Line:
    """Returns the line through two points of space, the same for both ways along it: its direction, and its moment."""
    along = lowest([b * p[3] - a * q[3] for a, b in zip(p[:3], q[:3])])
    if next(number for number in along if number) < 0:
        along = turned(along)
    moment = (p[1] * along[2] - p[2] * along[1], p[2] * along[0] - p[0] * along[2], p[0] * along[1] - p[1] * along[0])
    return along, tuple(ratio(number, p[3]) for number in moment)


def place_along(line: Line, point: Point) -> Number:
    """Returns where a `point` of a `line` comes along it."""
    return ratio(sum(a * b for a, b in zip(line[0], point)), point[3])


def split_rings(found: list[Facet]) -> list[list[Ring]]:
    """Returns the rings of the facets `found`, each edge divided at the corners of others that lie on it: so each edge
    of a closed boundary stands as often in one direction as in the other."""
    on_line: defaultdict[Line, set[Point]] = defaultdict(set)
    for facet in found:
        for ring in facet.rings:
            for p, q in edges(ring):
                on_line[line_in_space(p, q)] |= {p, q}
    ordered = {line: sorted(points, key=lambda point: place_along(line, point)) for line, points in on_line.items()}
    places = {line: {point: place for place, point in enumerate(points)} for line, points in ordered.items()}

    def divided(ring: Ring) -> Iterator[Point]:
        for p, q in edges(ring):
            line = line_in_space(p, q)
            begin, end = places[line][p], places[line][q]
            yield from ordered[line][begin:end] if begin < end else ordered[line][begin:end:-1]

    return [[list(divided(ring)) for ring in facet.rings] for facet in found]
