"""Areas of a plan, exact: outlines with holes of what convex polygons have together. Nothing here is rounded.

Convex polygons and outer rings go round counterclockwise, holes clockwise: the area is on the left of each edge.
"""
from __future__ import annotations

import bisect
import functools
from collections import Counter, defaultdict
from fractions import Fraction
from typing import Iterable, Iterator, Optional, Sequence

from .points import Box, Point, Ring, box_of, clipped, edges, lowest, overlap, ratio

Vector = tuple[int, int]
Edge = tuple[Point, Point]
# An outer ring, and the holes in it.
Outline = tuple[Ring, list[Ring]]


def area(ring: Ring) -> Fraction:
    """Returns the area that `ring` goes round, below 0 where it goes clockwise."""
    return Fraction(sum(ratio(p[0] * q[1] - p[1] * q[0], p[2] * q[2]) for p, q in edges(ring))) / 2


def line_of(p: Point, q: Point) -> tuple[int, int, int]:
    """Returns (a, b, c) of the line through `p` and `q`, so that ax + by + cw is above 0 on its left and 0 on it."""
    return p[1] * q[2] - p[2] * q[1], p[2] * q[0] - p[0] * q[2], p[0] * q[1] - p[1] * q[0]


def turn(p: Point, q: Point, r: Point) -> int:
    """Returns above 0 where `r` is on the left of the way from `p` to `q`, 0 where it is on its line."""
    a, b, c = line_of(p, q)
    return a * r[0] + b * r[1] + c * r[2]


def way(p: Point, q: Point) -> Vector:
    """Returns the direction from `p` to `q`."""
    return q[0] * p[2] - p[0] * q[2], q[1] * p[2] - p[1] * q[2]


def dot(u: Sequence[int], v: Sequence[int]) -> int:
    return u[0] * v[0] + u[1] * v[1]


def cross(u: Vector, v: Vector) -> int:
    return u[0] * v[1] - u[1] * v[0]


def is_convex(ring: Ring) -> bool:
    """Returns whether `ring` goes round a convex area once, counterclockwise, with a corner at each of its points."""
    ways = [way(p, q) for p, q in edges(ring)]
    upper = [y > 0 or y == 0 and x > 0 for x, y in ways]
    rounds = sum(after and not before for before, after in edges(upper))
    return rounds == 1 and all(cross(u, v) > 0 for u, v in edges(ways))


# ---- areas made apart

def cut(polygon: Ring, p: Point, q: Point, sign: int) -> Ring:
    """Returns what a convex `polygon` has on the left of the way from `p` to `q` (`sign` 1), or on the right of it (-1)."""
    a, b, c = line_of(p, q)
    values = [sign * (a * x + b * y + c * w) for x, y, w in polygon]
    return [] if max(values) <= 0 else polygon if min(values) >= 0 else clipped(polygon, values)


def minus(polygon: Ring, other: Ring) -> list[Ring]:
    """Returns what is left of a convex `polygon` outside the convex `other`: convex polygons that share no area."""
    left, inside = [], polygon
    for p, q in edges(other):
        outside = cut(inside, p, q, -1)
        if outside:
            left.append(outside)
        inside = cut(inside, p, q, 1)
        if not inside:
            return [polygon]
    return left


def without(polygons: Iterable[Ring], others: Iterable[tuple[Ring, Box]]) -> list[Ring]:
    """Returns what is left of convex `polygons` outside `others`, which are convex polygons each with its box."""
    left = [(polygon, box_of(polygon)) for polygon in polygons]
    for other, box in others:
        left = [(piece, its if piece is polygon else box_of(piece)) for polygon, its in left
                for piece in (minus(polygon, other) if overlap(its, box) else [polygon])]
    return [piece for piece, _ in left]


def apart(polygons: Iterable[Ring]) -> list[Ring]:
    """Returns convex polygons that share no area and have together what the convex `polygons` have."""
    found: list[tuple[Ring, Box]] = []
    for polygon in polygons:
        found += [(piece, box_of(piece)) for piece in without([polygon], list(found))]
    return [piece for piece, _ in found]


# ---- from polygons to edges

def outer_edges(polygons: Iterable[Ring]) -> Iterator[Edge]:
    """Yields the edges of `polygons`, which share no area, where no edge of another one runs the other way. No two cross."""
    lines: defaultdict[Point, Counter[Point]] = defaultdict(Counter)
    for polygon in polygons:
        for p, q in edges(polygon):
            a, b, c = lowest(line_of(p, q))
            steps = lines[(a, b, c) if (a, b) > (0, 0) else (-a, -b, -c)]
            steps[p] += 1
            steps[q] -= 1
    for (a, b, _), steps in lines.items():
        before: Optional[Point] = None
        net = 0
        # Along (b, -a), which has (a, b) on its left.
        for at in sorted(steps, key=lambda point: ratio(b * point[0] - a * point[1], point[2])):
            if before and net:
                yield (before, at) if net > 0 else (at, before)
            before, net = at, net + steps[at]


def divided(given: list[Edge]) -> Iterator[Edge]:
    """Yields the `given` edges, each divided where another one ends on it."""
    ends = sorted({(ratio(point[0], point[2]), point) for edge in given for point in edge})
    places = [x for x, _ in ends]
    for p, q in given:
        low, high = sorted((ratio(p[0], p[2]), ratio(q[0], q[2])))
        near = (point for _, point in ends[bisect.bisect_left(places, low):bisect.bisect_right(places, high)])
        along = way(p, q)
        on = [point for point in near if turn(p, q, point) == 0 and dot(along, way(p, point)) > 0 > dot(along, way(q, point))]
        on.sort(key=lambda point: ratio(dot(along, point), point[2]))
        yield from zip([p, *on], [*on, q])


# ---- from edges to rings

def sharpest_left(before: Point, at: Point, ends: list[Point]) -> Point:
    """Returns the one of `ends` to which the way from `before` over `at` turns most to the left."""
    back = way(at, before)

    def quarter(u: Vector) -> int:
        side = cross(back, u)
        return 0 if side < 0 else 1 if side == 0 and dot(back, u) < 0 else 2 if side > 0 else 3

    def compare(one: Point, other: Point) -> int:
        u, v = way(at, one), way(at, other)
        return quarter(u) - quarter(v) or cross(u, v)

    return min(ends, key=functools.cmp_to_key(compare))


def walk(ways: dict[Point, list[Point]], start: Point) -> list[Point]:
    """Returns a closed way from `start` back to it, along edges that are taken out of `ways`."""
    path = [start]
    while ways[path[-1]]:
        ends = ways[path[-1]]
        end = ends[0] if len(ends) == 1 or len(path) == 1 else sharpest_left(path[-2], path[-1], ends)
        ends.remove(end)
        path.append(end)
    return path


def loops(path: list[Point]) -> Iterator[Ring]:
    """Yields the rings of which a closed `path` is made: none goes through a point twice."""
    open_: Ring = []
    places: dict[Point, int] = {}
    for point in path:
        if point in places:
            ring = open_[places[point]:]
            del open_[places[point] + 1:]
            for other in ring[1:]:
                del places[other]
            yield ring
        else:
            places[point] = len(open_)
            open_.append(point)


def straightened(ring: Ring) -> Ring:
    """Returns the `ring` without the corners at which it goes straight on."""
    return [at for before, at, after in zip(ring[-1:] + ring[:-1], ring, ring[1:] + ring[:1]) if turn(before, at, after)]


def rings_of(given: Iterable[Edge]) -> Iterator[Ring]:
    """Yields the rings along the `given` edges, which meet in their ends alone."""
    ways: defaultdict[Point, list[Point]] = defaultdict(list)
    for p, q in given:
        ways[p].append(q)
    for start in list(ways):
        if ways[start]:
            yield from map(straightened, loops(walk(ways, start)))


# ---- from rings to outlines

def holds(ring: Ring, point: Point) -> int:
    """Returns 1 where a `point` is inside a `ring`, 0 where it is on it, -1 where it is outside."""
    odd = False
    for p, q in edges(ring):
        if p[1] * q[2] > q[1] * p[2]:
            p, q = q, p
        from_p, from_q = point[1] * p[2] - p[1] * point[2], q[1] * point[2] - point[1] * q[2]
        if from_p < 0 or from_q < 0:
            continue
        side = turn(p, q, point)
        if side == 0 and dot(way(p, point), way(q, point)) <= 0:
            return 0
        odd ^= side > 0 and from_q > 0
    return 1 if odd else -1


def surrounds(outer: Ring, hole: Ring) -> bool:
    """Returns whether `outer` goes round a `hole` that shares no more than points with it."""
    for p, q in edges(hole):
        middle = lowest((p[0] * q[2] + q[0] * p[2], p[1] * q[2] + q[1] * p[2], 2 * p[2] * q[2]))
        for point in (p, middle):
            found = holds(outer, point)
            if found:
                return found > 0
    return False


def outlines(polygons: list[Ring]) -> list[Outline]:
    """Returns of convex `polygons` that share no area: each outer ring, and a list of the holes in it. The smallest one comes first."""
    if len(polygons) == 1:
        return [(list(polygons[0]), [])]
    sized = [(area(ring), ring) for ring in rings_of(divided(list(outer_edges(polygons))))]
    found: list[Outline] = [(ring, []) for _, ring in sorted((each for each in sized if each[0] > 0), key=lambda each: each[0])]
    for size, hole in sized:
        if size < 0:
            next(holes for outer, holes in found if surrounds(outer, hole)).append(hole)
    return found


def middle(polygon: Ring) -> Point:
    """Returns the average of the corners of a convex `polygon`, which is inside of it."""
    x, y = (Fraction(sum(ratio(point[axis], point[2]) for point in polygon)) / len(polygon) for axis in (0, 1))
    return lowest((x.numerator * y.denominator, y.numerator * x.denominator, x.denominator * y.denominator))


def is_of(polygon: Ring, outer: Ring, holes: list[Ring]) -> bool:
    """Returns whether a convex `polygon` of an area is in the piece of the area that `outer` and `holes` go round."""
    at = middle(polygon)
    return holds(outer, at) > 0 and not any(holds(hole, at) > 0 for hole in holes)
