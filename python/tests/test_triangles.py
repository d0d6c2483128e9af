"""Polygons with holes as triangles: by hand, and drawn ones by their areas and edges."""
import random
from collections import Counter
from fractions import Fraction

import pytest
from rpstore import outline, triangles


def points(*numbers):
    return [(x, y, 1) for x, y in zip(numbers[::2], numbers[1::2])]


def are_sound(outer, holes):
    """The triangles go round counterclockwise, their corners are those of the polygon, they have its area together, and each edge of
    the polygon is one of theirs, while each other edge has a triangle on both sides."""
    found = list(triangles.triangles(outer, holes))
    assert all(outline.area(each) > 0 for each in found)
    assert sum(map(outline.area, found)) == sum(map(outline.area, [outer, *holes]))
    assert {point for each in found for point in each} == {point for ring in [outer, *holes] for point in ring}
    own = Counter(edge for ring in [outer, *holes] for edge in zip(ring, ring[1:] + ring[:1]))
    sides = Counter(edge for each in found for edge in zip(each, each[1:] + each[:1]))
    assert set(sides.values()) == {1} and all(sides[edge] for edge in own)
    assert all((q, p) in sides for p, q in sides if (p, q) not in own)
    return len(found)


def test_a_square_is_two():
    assert are_sound(points(0, 0, 4, 0, 4, 4, 0, 4), []) == 2


def test_a_corner_on_a_side():
    """A triangle with two corners on one of its sides is three triangles, none of them flat."""
    assert are_sound(points(0, 0, 3, 0, 6, 0, 9, 0, 4, 5), []) == 3


def test_a_hole():
    assert are_sound(points(0, 0, 9, 0, 9, 9, 0, 9), [points(3, 3, 3, 6, 6, 6, 6, 3)]) == 8


def test_a_hole_that_touches_a_corner_and_one_that_touches_another():
    """A hole at a corner of the ring, inside; and two holes that share a corner."""
    assert are_sound(points(0, 0, 9, 0, 9, 9, 0, 9), [points(0, 0, 2, 4, 4, 2)]) == 5
    assert are_sound(points(0, 0, 9, 0, 9, 9, 0, 9), [points(2, 2, 2, 4, 4, 4, 4, 2), points(4, 4, 4, 6, 6, 6, 6, 4)]) == 12


def test_corners_that_are_no_whole_numbers():
    assert are_sound([(0, 0, 1), (10, 1, 3), (7, 22, 2), (-1, 5, 7)], []) == 2


def test_a_comb():
    """Its teeth hide most corners from each other."""
    teeth = [each for x in range(0, 40, 4) for each in ((x, 0), (x + 1, 20), (x + 2, 0))]
    ring = [(x, y, 1) for x, y in [*teeth, (39, 21), (0, 21)]]
    assert are_sound(ring, []) == len(ring) - 2


def drawn(rng):
    """Squares of a grid that are drawn, some cut in half: outlines that have holes, touch in corners, and have corners on sides."""
    cells = []
    for x in range(rng.randint(3, 7)):
        for y in range(rng.randint(3, 7)):
            if rng.random() < 0.75:
                square = points(3 * x, 3 * y, 3 * x + 3, 3 * y, 3 * x + 3, 3 * y + 3, 3 * x, 3 * y + 3)
                cells.append(square if rng.random() < 0.7 else square[:3])
    return cells


def divided(ring, corners, rng):
    """A ring with the `corners` that lie on its sides, and others that are drawn on them."""
    found = []
    for p, q in zip(ring, ring[1:] + ring[:1]):
        on = {point for point in corners if outline.turn(p, q, point) == 0 and outline.dot(outline.way(p, point), outline.way(q, point)) < 0}
        for part in [Fraction(rng.randint(1, 6), 7) for _ in range(rng.choice([0, 0, 1, 2]))]:
            x, y = (p[axis] * (1 - part) + q[axis] * part for axis in (0, 1))
            on.add(outline.lowest((x.numerator * y.denominator, y.numerator * x.denominator, x.denominator * y.denominator)))
        found += [p, *sorted(on, key=lambda point: triangles.square_distance(p, point))]
    return found


@pytest.mark.parametrize("seed", range(80))
def test_drawn_polygons(seed):
    rng = random.Random(seed)
    for outer, holes in outline.outlines(drawn(rng)):
        corners = {point for ring in [outer, *holes] for point in ring}
        are_sound(divided(outer, corners, rng), [divided(hole, corners, rng) for hole in holes])
