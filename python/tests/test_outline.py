import random
from fractions import Fraction

import pytest
from rpstore import outline


def plan(*corners):
    return [(x, y, 1) for x, y in corners]


def test_an_outline_without_inner_edges():
    # An L of three squares; and a ring of four boxes round a hole.
    [(outer, holes)] = outline.outlines([plan((0, 0), (5, 0), (5, 5), (0, 5)), plan((5, 0), (10, 0), (10, 5), (5, 5)), plan((0, 5), (5, 5), (5, 10), (0, 10))])
    assert len(outer) == 6 and not holes and outline.area(outer) == 75
    [(outer, [hole])] = outline.outlines([plan((0, 0), (9, 0), (9, 3), (0, 3)), plan((0, 6), (9, 6), (9, 9), (0, 9)), plan((0, 3), (3, 3), (3, 6), (0, 6)),
                                       plan((6, 3), (9, 3), (9, 6), (6, 6))])
    assert len(outer) == 4 and outline.area(outer) == 81 and outline.area(hole) == -9


def test_squares_that_touch_in_a_corner_are_two():
    found = outline.outlines([plan((0, 0), (5, 0), (5, 5), (0, 5)), plan((5, 5), (9, 5), (9, 9), (5, 9))])
    assert sorted(outline.area(outer) for outer, _ in found) == [16, 25]


def test_a_hole_that_touches_the_outer_ring():
    # A square of 8 with a hole whose corner lies on its lower side.
    pieces = [plan((0, 0), (4, 0), (2, 2), (4, 4), (0, 4)), plan((4, 0), (8, 0), (8, 4), (4, 4), (6, 2)), plan((0, 4), (8, 4), (8, 8), (0, 8))]
    convex = [plan((0, 0), (4, 0), (2, 2)), plan((0, 0), (2, 2), (0, 4)), plan((0, 4), (2, 2), (4, 4)), plan((4, 0), (8, 0), (6, 2)), plan((8, 0), (8, 4), (6, 2)),
              plan((6, 2), (8, 4), (4, 4)), pieces[2]]
    [(outer, [hole])] = outline.outlines(convex)
    assert len(outer) == 4 and len(hole) == 4 and outline.area(hole) == -8


def test_a_tip_that_touches_a_wall_closes_a_hole():
    # An upright slab, one along its foot, and a wedge upon that, whose tip touches the slab where no corner of it is.
    [(outer, [hole])] = outline.outlines([plan((0, 0), (1, 0), (1, 4), (0, 4)), plan((1, 0), (4, 0), (4, 1), (1, 1)), plan((2, 1), (4, 1), (1, 2))])
    assert set(hole) == set(plan((1, 1), (1, 2), (2, 1))) and outline.area(outer) == 4 + 3 + 1 + Fraction(1, 2)
    assert len(outer) == len(set(outer)) == 6


@pytest.mark.parametrize("point, told", [((1, 1, 1), 1), ((0, 0, 1), 0), ((1, 0, 1), 0), ((2, 1, 1), 0), ((3, 1, 1), -1), ((-1, 0, 1), -1), ((1, 3, 2), 1)])
def test_a_point_in_a_ring(point, told):
    assert outline.holds(plan((0, 0), (2, 0), (2, 2), (0, 2)), point) == told


@pytest.mark.parametrize("seed", range(100))
def test_outlines_are_valid_by_shapely(seed):
    """Squares and triangles of a grid, which touch in edges and in corners."""
    geometry = pytest.importorskip("shapely.geometry", reason="python3-shapely is not there")
    rng, pieces = random.Random(seed), []
    for x in range(5):
        for y in range(5):
            square = plan((x, y), (x + 1, y), (x + 1, y + 1), (x, y + 1))
            pieces += rng.choice([[], [square], [square[:3], square[2:] + square[:1]], [square[:3]], [square[1:]]])
    found = outline.outlines(pieces) if pieces else []
    assert sum(outline.area(ring) for outer, holes in found for ring in (outer, *holes)) == sum(map(outline.area, pieces))
    assert geometry.MultiPolygon([([(x / w, y / w) for x, y, w in outer], [[(x / w, y / w) for x, y, w in hole] for hole in holes])
                                  for outer, holes in found]).is_valid
