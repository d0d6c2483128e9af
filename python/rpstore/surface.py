"""The boundary of a body as databases want it of a solid: polygons with rounded corners, each of them flat.

Corners are rounded to the micrometre and then to the nearest double, so that those of a slanted face may lie in no plane. A
face for which this is so becomes triangles, which are always flat. So does a face that has more than one edge in common with
another one, as a wall with a niche that stands on the floor has with the floor: SFCGAL takes the two for crossing.
"""
from __future__ import annotations

from collections import Counter, defaultdict
from fractions import Fraction
from itertools import combinations
from typing import Callable, Iterator

from . import shape, triangles
from .points import Point, Ring, lowest

# A corner as it is written: metres on the map.
Corner = list[float]
Written = Callable[[Point], Corner]
# The corners of one edge.
ENDS = 2


def difference(p: Corner, q: Corner) -> list[Fraction]:
    return [Fraction(b) - Fraction(a) for a, b in zip(p, q)]


def cross(u: list[Fraction], v: list[Fraction]) -> list[Fraction]:
    return [u[1] * v[2] - u[2] * v[1], u[2] * v[0] - u[0] * v[2], u[0] * v[1] - u[1] * v[0]]


def are_in_a_plane(corners: list[Corner]) -> bool:
    """Returns whether corners, as they are written, lie in one plane."""
    first, *others = corners
    ways = [difference(first, other) for other in others]
    normals = (cross(u, v) for u, v in combinations(ways, 2))
    normal = next((each for each in normals if any(each)), None)
    return normal is None or not any(sum(a * b for a, b in zip(normal, way)) for way in ways)


def is_flat(facet: shape.Facet, rings: list[Ring], written: Written) -> bool:
    """Returns whether the corners of a face lie in one plane as they are written."""
    half, points = facet.half, {point for ring in rings for point in ring}
    is_square = sum(map(bool, half[:3])) == 1
    is_wall = not half[2] and len({lowest((x, y, w)) for x, y, _, w in points}) == 2
    return is_square or is_wall or len(points) == 3 or are_in_a_plane([written(point) for point in points])


def much_joined(faces: list[list[Ring]]) -> Iterator[int]:
    """Yields the places of faces that have more than two corners in common with an earlier face."""
    at_corner = defaultdict(set)
    for number, rings in enumerate(faces):
        for ring in rings:
            for point in ring:
                at_corner[point].add(number)
    shared = Counter(pair for numbers in at_corner.values() for pair in combinations(sorted(numbers), 2))
    yield from (later for (_, later), count in shared.items() if count > ENDS)


def as_triangles(facet: shape.Facet, rings: list[Ring]) -> Iterator[list[Ring]]:
    """Yields a face as triangles. Its `rings` have the corners of other faces on their edges."""
    flat = shape.Flattened(facet.half, -1)
    outer, *holes = map(flat.there, rings)
    yield from ([flat.back(each)] for each in triangles.triangles(outer, holes))


def faces(facets: list[shape.Facet], written: Written) -> list[list[Ring]]:
    """Returns the faces of a closed boundary, each as its outer ring and its holes. Each edge of one is an edge of another, the other
    way round, and each face is flat when its corners are `written`."""
    split = shape.split_rings(facets)
    bent = {number for number, (facet, rings) in enumerate(zip(facets, split)) if not is_flat(facet, rings, written)}
    bent.update(much_joined(split))
    return [face for number, (facet, rings) in enumerate(zip(facets, split)) for face in (as_triangles(facet, rings) if number in bent else [rings])]
