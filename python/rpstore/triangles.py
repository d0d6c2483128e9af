"""A polygon with holes as triangles, whose corners are corners of the polygon. Exact: nothing is rounded.

Points are those of a plan, (x, y, w). The outer ring goes round counterclockwise and its holes clockwise, so that the polygon
is on the left of each edge; where two of these rings touch, both have a corner. Holes are joined to the outer ring by edges
there and back; then ears are cut off, one by one.
"""
from __future__ import annotations

from itertools import product
from typing import Iterable, Iterator, Optional

from .outline import dot, turn, way
from .points import Number, Point, Ring, edges, ratio


def square_distance(p: Point, q: Point) -> Number:
    return sum((ratio(a, p[2]) - ratio(b, q[2])) ** 2 for a, b in zip(p[:2], q[:2]))


def is_crossed(p: Point, q: Point, rings: Iterable[Ring]) -> bool:
    """Returns whether the segment from `p` to `q` crosses an edge of `rings`, or has a corner of them between its ends."""
    for ring in rings:
        for a, b in edges(ring):
            at_a, at_b = turn(p, q, a), turn(p, q, b)
            if at_a == 0 and dot(way(p, a), way(q, a)) < 0:
                return True
            if at_a * at_b < 0 and turn(a, b, p) * turn(a, b, q) < 0:
                return True
    return False


def is_inward(ring: Ring, at: int, point: Point) -> bool:
    """Returns whether the way from the corner `at` of a `ring` to a point begins on the left of both edges at the corner."""
    before, corner, after = ring[at - 1], ring[at], ring[(at + 1) % len(ring)]
    if turn(before, corner, after) > 0:
        return turn(corner, point, before) > 0 and turn(point, corner, after) > 0
    return not (turn(corner, point, after) >= 0 and turn(point, corner, before) >= 0)


def joined(ring: Ring, holes: list[Ring]) -> tuple[Ring, list[Ring]]:
    """Returns the ring joined with the nearest of the `holes`, and the others."""
    places = ((square_distance(ring[at], hole[to]), number, at, to) for number, hole in enumerate(holes)
              for at, to in product(range(len(ring)), range(len(hole))))
    for distance, number, at, to in sorted(places):
        hole = holes[number]
        # Where the hole touches the ring, the next corner of the hole tells on which side it is.
        toward = hole[to] if distance else hole[(to + 1) % len(hole)]
        if is_inward(ring, at, toward) and not (distance and is_crossed(ring[at], hole[to], [ring, *holes])):
            # There and back: both ends come twice, but the common corner once more if the two touch.
            around = hole[to:] + hole[:to]
            return ring[: at + 1] + (around + [hole[to]] if distance else around[1:]) + ring[at:], holes[:number] + holes[number + 1:]
    raise AssertionError("a hole is outside its ring")


def is_ear(ring: Ring, at: int) -> bool:
    """Returns whether the triangle at a corner of a ring is in it: no other corner lies in the triangle or on its sides."""
    before, corner, after = ring[at - 1], ring[at], ring[(at + 1) % len(ring)]
    if turn(before, corner, after) <= 0:
        return False
    sides = (before, corner), (corner, after), (after, before)
    return not any(all(turn(p, q, point) >= 0 for p, q in sides) for point in ring if point not in (before, corner, after))


def spike_of(ring: Ring) -> Optional[int]:
    """Returns a corner at which a ring goes there and back, or None."""
    return next((at for at in range(len(ring)) if ring[at - 1] == ring[(at + 1) % len(ring)]), None)


def without_spikes(ring: Ring) -> Ring:
    """Returns the ring without the edges along which it goes there and back."""
    while len(ring) > 2:
        at = spike_of(ring)
        if at is None:
            return ring
        ring = [point for place, point in enumerate(ring) if place not in (at, (at + 1) % len(ring))]
    return []


def triangles(outer: Ring, holes: list[Ring]) -> Iterator[Ring]:
    """Yields triangles that make up a polygon, each counterclockwise. Each edge of the polygon is one of theirs."""
    ring = outer
    while holes:
        ring, holes = joined(ring, holes)
    while ring:
        at = next(at for at in range(len(ring)) if is_ear(ring, at))
        yield [ring[at - 1], ring[at], ring[(at + 1) % len(ring)]]
        ring = without_spikes(ring[:at] + ring[at + 1:])
