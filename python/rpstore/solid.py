"""Solids of plane faces, exact: whether their surface is closed and does not cross itself, and convex parts of them.

A solid is cut along the planes of its faces until no face is left in a part (a tree of planes, as Fuchs, Kedem and Naylor have
it). First come planes that have all other faces on one side, so a convex solid is one part; then the planes of reflex faces,
those that cut the fewest others first. Corners of parts are rational, and no plane is made that is not that of a face.
"""
from __future__ import annotations

from collections import Counter
from fractions import Fraction
from typing import Iterable, Iterator, NamedTuple, Optional

from . import outline, plane, shape, told
from .points import Point, Ring, box_of, clipped, edges, ratio
from .rings import Unfit
from .shape import Cell, Half, value

# A part of the store keeps 32 half-spaces, and the box with which a part is spelled may have six that its faces have not.
MOST_HALVES = 26
# Planes with the most pieces are tried as the next one: of a few hundred all would take minutes.
MOST_TRIED = 24
# A surface that needs more cuts is that of no building.
MOST_CUTS = 20000
CROSSED = "a surface crosses or touches itself, or is turned inside out"


class Face(NamedTuple):
    """A face of a solid: how it is called, its outer ring and its holes, which go round counterclockwise and clockwise seen from
    outside, and the half-space of its plane that holds the solid next to it."""

    name: str
    rings: list[Ring]
    half: Half


class Piece(NamedTuple):
    """A convex piece of a face: the half-space of the face, and the polygon."""

    half: Half
    polygon: Ring


# ---- the surface

def volume_of(faces: Iterable[list[Ring]]) -> Fraction:
    """Returns the volume that the rings of faces enclose, below 0 if they are turned inside out."""
    return sum((shape.fan_volume(ring) for face in faces for ring in face), Fraction(0))


def see_closed(name: str, faces: Iterable[list[Ring]]) -> None:
    """Checks that a surface is closed: each edge has as many faces in one direction as in the other.

    # Errors
    `Unfit` if an edge has not.
    """
    net: Counter[tuple[Point, Point]] = Counter()
    for p, q in (edge for face in faces for ring in face for edge in edges(ring)):
        net[min(p, q), max(p, q)] += (p < q) - (q < p)
    open_ = sorted(edge for edge, count in net.items() if count)
    if open_:
        raise Unfit("a surface is not closed: an edge has more faces on one side than on the other",
                    f"{name}, {len(open_)} edges; the first from {spelled(open_[0][0])} to {spelled(open_[0][1])}")


def spelled(point: Point) -> str:
    """Returns a point in metres, with .. after a number that goes on."""
    return " ".join(told.metres(Fraction(number, point[3])) for number in point[:3])


def strips(sides: list[tuple[Point, Point]]) -> Iterator[tuple[Fraction, list[tuple[int, int]]]]:
    """Yields each x at which sides begin or end, and between which two sides there is something on its right: their numbers."""
    places = sorted({Fraction(point[0], point[2]) for side in sides for point in side})
    for west, east in zip(places, places[1:] + places[-1:]):
        over = [number for _, number in sorted((height(side, (west + east) / 2), number) for number, side in enumerate(sides) if is_over(side, west, east))]
        yield west, list(zip(over[::2], over[1::2]))


def trapezoids(rings: list[Ring]) -> list[Ring]:
    """Returns convex polygons of a plan that share no area and have together what an odd number of rings go round. No two edges of
    the rings cross."""
    sides = [(p, q) if ratio(p[0], p[2]) < ratio(q[0], q[2]) else (q, p) for ring in rings for p, q in edges(ring) if p[0] * q[2] != q[0] * p[2]]
    begun: dict[tuple[int, int], Fraction] = {}
    found: list[Ring] = []
    for west, pairs in strips(sides):
        ended = [pair for pair in begun if pair not in pairs]
        found += [quadrangle(sides[low], sides[high], begun.pop((low, high)), west) for low, high in ended]
        begun.update({pair: west for pair in pairs if pair not in begun})
    return found


def is_over(side: tuple[Point, Point], west: Fraction, east: Fraction) -> bool:
    p, q = side
    return west < east and Fraction(p[0], p[2]) <= west and east <= Fraction(q[0], q[2])


def height(side: tuple[Point, Point], x: Fraction) -> Fraction:
    """Returns the y at which a side, which is not upright, has an x."""
    a, b, c = outline.line_of(*side)
    return -(a * x + c) / b


def quadrangle(low: tuple[Point, Point], high: tuple[Point, Point], west: Fraction, east: Fraction) -> Ring:
    """Returns what lies between two sides from one x to another: four corners, or three."""
    ways = [(west, low), (east, low), (east, high), (west, high)]
    return list(dict.fromkeys(homogeneous((x, height(side, x))) for x, side in ways))


def homogeneous(point: Iterable[Fraction]) -> Point:
    """Returns the integers of a point, in lowest terms."""
    return plane.whole([*point, 1])


def pieces_of(face: Face) -> list[Piece]:
    """Returns the convex pieces of a face, which lie in its plane.

    # Errors
    `Unfit` if its rings cross.
    """
    flat = shape.Flattened(face.half, -1)
    rings = [flat.there(ring) for ring in face.rings]
    found = trapezoids(rings)
    if sum(map(outline.area, found)) != sum(map(outline.area, rings)):
        raise Unfit("a face crosses itself", face.name)
    return [Piece(face.half, flat.back(polygon)) for polygon in found]


# ---- convex parts

def sides(half: Half, polygon: Ring, tolerance: Fraction) -> list[int]:
    """Returns for each corner a number that is above 0 inside a half-space, below 0 outside, and 0 at its plane, or as near to it as
    the tolerance, measured along the axis on which the plane is steepest."""
    a, b, c, d = half
    found = [a * x + b * y + c * z + d * w for x, y, z, w in polygon]
    if tolerance:
        most = tolerance * plane.greatest(half[:3])
        found = [0 if abs(each) <= most * point[3] else each for each, point in zip(found, polygon)]
    return found


def divided(half: Half, pieces: Iterable[Piece], tolerance: Fraction) -> tuple[list[Piece], list[Piece], int]:
    """Returns the pieces inside and outside a half-space, and how many were cut. Those in its plane are left out."""
    inner, outer, cut = [], [], 0
    for piece in pieces:
        at = sides(half, piece.polygon, tolerance)
        least, most = min(at), max(at)
        if least < 0 < most:
            cut += 1
            inner.append(Piece(piece.half, clipped(piece.polygon, at)))
            outer.append(Piece(piece.half, clipped(piece.polygon, [-each for each in at])))
        elif least < 0:
            outer.append(piece)
        elif most > 0:
            inner.append(piece)
    return inner, outer, cut


def best_cut(pieces: list[Piece], tolerance: Fraction) -> tuple[Half, list[Piece], list[Piece]]:
    """Returns the half-space of a face by which to cut next, and the pieces on both sides."""
    best: Optional[tuple[int, Half, list[Piece], list[Piece]]] = None
    for half, _ in Counter(piece.half for piece in pieces).most_common(MOST_TRIED):
        inner, outer, cut = divided(half, pieces, tolerance)
        if not (inner and outer):
            return half, inner, outer
        cost = 4 * cut + abs(len(inner) - len(outer))
        if not best or cost < best[0]:
            best = cost, half, inner, outer
    assert best
    return best[1:]


def leaves(pieces: list[Piece], tolerance: Fraction) -> Iterator[tuple[Cell, bool]]:
    """Yields convex bodies that no piece of a surface crosses, each with whether it is inside of the surface.

    # Errors
    `Unfit` if there are too many of them.
    """
    cuts = 0
    waiting: list[tuple[Cell, list[Piece], bool]] = [(frame([point for piece in pieces for point in piece.polygon]), pieces, False)]
    while waiting:
        cell, crossing, is_inside = waiting.pop()
        if not crossing:
            yield cell, is_inside
            continue
        cuts += 1
        if cuts > MOST_CUTS:
            raise Unfit(f"more than {MOST_CUTS} cuts are needed to divide a solid into convex parts", remedy="divide the solid in the model")
        half, inner, outer = best_cut(crossing, tolerance)
        for side, some, is_inner in ((shape.turned(half), outer, False), (half, inner, True)):
            part = cell.cut(side)
            if part:
                waiting.append((part, some, is_inner))


def is_thin(cell: Cell, tolerance: Fraction) -> bool:
    """Returns whether the middle of a part is as near to one of its faces as the tolerance."""
    return any(plane.distance(half, middle(cell)) <= tolerance for half in cell.halves)


def convex_parts(name: str, faces: list[Face], pieces: list[Piece], tolerance: Fraction = Fraction(0)) -> list[Cell]:
    """Returns the convex parts of the solid with these `faces` and their `pieces`; they share no volume. The surface through the
    corners goes once round each part of the solid, and round no other one; with a tolerance this is not asked of thin ones.

    # Errors
    `Unfit` if it does not.
    """
    found, surface = [], list(triangles(faces))
    for cell, is_inside in leaves(pieces, tolerance):
        times = times_round(middle(cell), surface)
        if times != is_inside and not (tolerance and is_thin(cell, tolerance)):
            raise Unfit(CROSSED, f"{name}: it goes {times} times round {spelled(middle(cell))}")
        found += [cell] if is_inside else []
    return [part for cell in found for part in few_halves(cell)]


def frame(points: list[Point]) -> Cell:
    """Returns a box round points that reaches further on each side."""
    low, high = box_of(points)
    ends = [((1, 1 - int(low[axis] // 1)), (-1, 1 - int(-high[axis] // 1))) for axis in range(3)]
    found = shape.brick([[tuple(sign * (at == axis) for at in range(3)) + (end,) for sign, end in ends[axis]] for axis in range(3)])
    assert found
    return found


def halved(cell: Cell) -> Iterator[list[Cell]]:
    """Yields the points of a part on both sides of integer levels on each axis: through its middle, and through the
    corner with the most faces, for example the top of a cone."""
    top = plane.numbers(Counter(point for _, polygon in cell.faces for point in polygon).most_common(1)[0][0])
    for axis, (low, high) in enumerate(zip(*cell.box)):
        for at in (Fraction(low + high) / 2, Fraction(top[axis])):
            half = tuple(int(each == axis) for each in range(3)) + (-plane.nearest(at),)
            yield [piece for piece in (cell.cut(half), cell.cut(shape.turned(half))) if piece]


def few_halves(cell: Cell) -> list[Cell]:
    """Returns the pieces of a part, cut where that leaves them the fewest faces, until each has no more half-spaces than a part of the
    store keeps.

    # Errors
    `Unfit` if no cut makes them fewer.
    """
    if len(cell.faces) <= MOST_HALVES:
        return [cell]
    best = min(halved(cell), key=lambda pieces: max(len(piece.faces) for piece in pieces))
    if max(len(piece.faces) for piece in best) >= len(cell.faces):
        raise Unfit(f"a convex part has more than {MOST_HALVES} faces, and no cut makes them fewer", remedy="divide the solid in the model")
    return [piece for half in best for piece in few_halves(half)]


# ---- how often a surface goes round a point

def middle(cell: Cell) -> Point:
    """Returns the average of the corners of a part, which is inside of it."""
    places = [plane.numbers(point) for point in cell.points]
    return homogeneous(sum(map(Fraction, axis), Fraction(0)) / len(places) for axis in zip(*places))


def is_under(point: Point, polygon: Ring) -> bool:
    """Returns whether the line upwards from a point meets a convex polygon in plan. Of a point on an edge it is decided as for one
    next to it, so that polygons that share an edge never both have it."""
    odd = False
    for p, q in edges([(x, y, w) for x, y, _, w in polygon]):
        low, high = (p, q) if p[0] * q[2] < q[0] * p[2] else (q, p)
        if low[0] * point[3] <= point[0] * low[2] and point[0] * high[2] < high[0] * point[3]:
            turn = outline.turn(low, high, (point[0], point[1], point[3]))
            rises = (high[1] * low[2] - low[1] * high[2]) > 0
            odd ^= turn < 0 or turn == 0 and rises
    return odd


def triangles(faces: Iterable[Face]) -> Iterator[Piece]:
    """Yields triangles from the first corner of each ring to its edges, each with the half-space of its own plane. The edges of the
    faces are closed, so these make a closed surface, if faces are not plane, too; where they overlap they cancel out."""
    for ring in (ring for face in faces for ring in face.rings):
        for p, q in zip(ring[1:], ring[2:]):
            direction = plane.normal([ring[0], p, q])
            if any(direction):
                yield Piece(shape.turned(plane.through(p, direction)), [ring[0], p, q])


def times_round(point: Point, pieces: Iterable[Piece]) -> int:
    """Returns how often the surface with these `pieces` goes round a point that is not on it: 1 inside, 0 outside."""
    found = 0
    for half, polygon in pieces:
        if half[2] and value(half, point) * half[2] < 0 and is_under(point, polygon):
            found += 1 if half[2] < 0 else -1
    return found
