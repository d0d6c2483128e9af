import random
from collections import Counter
from fractions import Fraction

import pytest
from rpstore import outline, shape


def box(*ends):
    low, high = ends[:3], ends[3:]
    return shape.cell([(1, 0, 0, -low[0]), (-1, 0, 0, high[0]), (0, 1, 0, -low[1]), (0, -1, 0, high[1]), (0, 0, 1, -low[2]), (0, 0, -1, high[2])])


def test_a_box():
    found = box(0, 0, 0, 4, 5, 6)
    assert found.volume == 120 and len(found.faces) == 6 and len(found.points) == 8 and found.is_bounded
    assert found.box == ((0, 0, 0), (4, 5, 6))


def test_a_corner_of_a_box():
    # The pyramid under 2x + 4y + 3z = 12: its legs are 6, 3 and 4, so its volume is 6 * 3 * 4 / 6.
    found = shape.cell([(1, 0, 0, 0), (0, 1, 0, 0), (0, 0, 1, 0), (-2, -4, -3, 12)])
    assert found.volume == 12 and found.points == {(0, 0, 0, 1), (6, 0, 0, 1), (0, 3, 0, 1), (0, 0, 4, 1)}


def test_corners_that_are_no_whole_numbers():
    # Between x = 0, y = 0, z = 0, z = 1 and 3x + 3y = 1: a prism over a triangle with legs of 1/3.
    found = shape.cell([(1, 0, 0, 0), (0, 1, 0, 0), (0, 0, 1, 0), (0, 0, -1, 1), (-3, -3, 0, 1)])
    assert found.volume == Fraction(1, 18) and (1, 0, 0, 3) in found.points


def test_a_part_without_an_end():
    assert not shape.cell([(1, 0, 0, -10)]).is_bounded
    assert shape.cell([]).volume == 2**75


def test_two_boxes_that_touch_are_one():
    found = shape.facets([box(0, 0, 0, 4, 10, 10), box(4, 0, 0, 10, 10, 10)])
    assert len(found) == 6 and all(len(facet.outer) == 4 and not facet.holes for facet in found)


def test_a_box_upon_a_box_leaves_a_hole_in_its_roof():
    cells = [box(0, 0, 0, 10, 10, 10), box(2, 2, 10, 5, 5, 20)]
    found = shape.facets(cells)
    [roof] = [facet for facet in found if facet.holes]
    assert len(found) == 11 and roof.half == (0, 0, -1, 10) and set(roof.holes[0]) == {(2, 2, 10, 1), (5, 2, 10, 1), (5, 5, 10, 1), (2, 5, 10, 1)}
    assert sum(map(outline.area, shape.footprint(found))) == 100


def test_parts_that_overlap_count_once():
    cells = shape.apart([box(0, 0, 0, 10, 10, 10), box(5, 5, 5, 15, 15, 15)])
    assert shape.volume(cells) == 1000 + 1000 - 125
    assert sum(map(outline.area, shape.footprint(shape.facets(cells)))) == 100 + 100 - 25


def drawn_cells(rng):
    """Convex bodies that may overlap, touch or lie apart."""
    cells = []
    for _ in range(rng.randint(2, 5)):
        low = [rng.randint(0, 8) for _ in range(3)]
        body = box(*low, *(at + rng.randint(1, 8) for at in low))
        for _ in range(rng.randint(0, 2)):
            normal = [rng.randint(-3, 3) for _ in range(3)]
            if body and any(normal):
                body = body.cut((*normal, rng.randint(0, 3) - sum(a * at for a, at in zip(normal, low))))
        cells += [body] if body else []
    return cells


@pytest.mark.parametrize("seed", range(60))
def test_boundaries_are_closed_and_have_the_volume(seed):
    rng = random.Random(seed)
    given = drawn_cells(rng)
    cells = shape.apart(given)
    for facet in shape.facets(cells):
        flat = shape.Flattened(facet.half, -1)
        rings, pieces = ([outline.area(flat.there(ring)) for ring in each] for each in (facet.rings, facet.pieces))
        assert sum(rings) == sum(pieces) and min(pieces) > 0 and rings[0] > 0 > max([-1, *rings[1:]])
    rings = [ring for facet in shape.split_rings(shape.facets(cells)) for ring in facet]
    edges = Counter((p, q) for ring in rings for p, q in zip(ring, ring[1:] + ring[:1]))
    assert all(edges[q, p] == count for (p, q), count in edges.items())
    assert sum(map(shape.fan_volume, rings)) == shape.volume(cells)
    # The volume of a union, one body after the other, from that of what two have in common.
    whole, left = Fraction(0), []
    for body in given:
        whole += body.volume - shape.volume([piece for other in shape.apart(left) for piece in [common(body, other)] if piece])
        left.append(body)
    assert whole == shape.volume(cells)


def common(body, other):
    for half in other.halves:
        body = body and body.cut(half)
    return body
