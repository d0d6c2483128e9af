"""Places along a line, by hand."""
import random
from fractions import Fraction

import pytest
from rpstore import Fault, crosses
from rpstore.line import Line, between, inside, middle
from rpstore.place import Place

# A box from (0, 0, 0) to (4, 5, 3), as half-spaces.
BOX = [(1, 0, 0, 0), (-1, 0, 0, 4), (0, 1, 0, 0), (0, -1, 0, 5), (0, 0, 1, 0), (0, 0, -1, 3)]


@pytest.mark.parametrize("p, q, wanted", [
    ((-4, 1, 1), (8, 1, 1), (Fraction(1, 3), Fraction(2, 3))), ((8, 1, 1), (-4, 1, 1), (Fraction(1, 3), Fraction(2, 3))), ((1, 1, 1), (3, 4, 2), (0, 1)),
    ((-4, 6, 1), (8, 6, 1), None), ((5, 1, 1), (8, 1, 1), None), ((-4, 5, 3), (8, 5, 3), (Fraction(1, 3), Fraction(2, 3))),
    # Through an edge, and past it; through the opposite corners.
    ((-2, 2, 1), (2, -2, 1), (Fraction(1, 2), Fraction(1, 2))), ((-3, 2, 1), (2, -3, 1), None), ((-4, -5, -3), (8, 10, 6), (Fraction(1, 3), Fraction(2, 3)))])
def test_what_a_box_has_of_a_segment(p, q, wanted):
    assert inside(p, q, BOX) == wanted


def test_a_part_without_bounds_has_all():
    assert inside((0, 0, 0), (1, 0, 0), []) == (0, 1)


def test_places_points_and_lengths():
    line = Line([(0, 0, 0), (3000, 4000, 0), (3000, 4000, 12000)])
    assert [line.point(Fraction(place)) for place in ("0", "1/2", "1", "5/4", "2")] == [
        (0, 0, 0, 1), (1500, 2000, 0, 1), (3000, 4000, 0, 1), (3000, 4000, 3000, 1), (3000, 4000, 12000, 1)]
    assert line.point(Fraction(1, 7)) == (3000, 4000, 0, 7)
    assert line.length(Fraction(0), Fraction(2)) == 17000 and line.length(Fraction(1, 2), Fraction(5, 4)) == 2500 + 3000
    assert line.way(Fraction(1, 2), Fraction(5, 4)) == [(1500, 2000, 0, 1), (3000, 4000, 0, 1), (3000, 4000, 3000, 1)]
    assert line.way(Fraction(1), Fraction(2)) == [(3000, 4000, 0, 1), (3000, 4000, 12000, 1)] and line.way(Fraction(1), Fraction(1)) == [(3000, 4000, 0, 1)]


def test_stations():
    line = Line([(-4, 1, 1), (8, 1, 1), (8, 9, 1)])
    assert line.stations([BOX]) == [0, Fraction(1, 3), Fraction(2, 3), 1, 2] and line.stations([]) == [0, 1, 2]


def test_a_number_between_two_others():
    rng = random.Random(2)
    for _ in range(200):
        low, high = sorted(Fraction(rng.randint(-99, 99), rng.randint(1, 2**52)) for _ in range(2))
        if low < high:
            assert low < between(low, high) < high and between(low, high).denominator <= low.denominator + high.denominator
    assert middle(Fraction(5, 2), Fraction(3)) == Fraction(8, 3)


@pytest.mark.parametrize("seed", range(20))
def test_boxes_hold_the_line(seed):
    """Each point of a drawn line is in a box, from its lower sides to before its upper ones."""
    rng = random.Random(seed)
    corners = [tuple(rng.randint(-30, 30) for _ in range(3)) for _ in range(rng.randint(2, 5))]
    line = Line(corners)
    boxes = list(line.boxes(rng.choice([1, 8, 64])))
    assert line.count <= len(boxes) <= max(64, line.count)
    for place in (Fraction(rng.randint(0, 10**6) * line.count, 10**6) for _ in range(300)):
        *point, weight = line.point(place)
        assert any(all(low * weight <= number < high * weight for number, low, high in zip(point, *box)) for box in boxes)
    for at in range(line.count + 1):
        assert any(all(low <= number < high for number, low, high in zip(corners[at], *box)) for box in boxes)


def test_boxes_along_an_axis_are_one():
    assert list(Line([(0, 7, -2), (900, 7, -2)]).boxes(64)) == [([0, 7, -2], [901, 8, -1])]


def test_points_of_a_line():
    assert crosses.line_of([0, 0, 0, 1, 2, 3]).corners == [(0, 0, 0), (1, 2, 3)]
    assert len(crosses.line_of([number for at in range(513) for number in (at, 0, 0)]).corners) == 513


@pytest.mark.parametrize("numbers, said", [
    ([0] * 5, "with three numbers each, x y z, and these are 5 numbers"), ([0, 0, 0], "and these are 3 numbers"), ([0, 0, 0] * 2, "that follow each other are one"),
    ([0, 0, 0, 2**24, 0, 0], "16777.216 is out of bounds"), ([0, 0, 0, 1, 0, -2**24], "-16777.216 is out of bounds"),
    ([number for at in range(514) for number in (at, 0, 0)], "the line has 514 points, and may have 513")])
def test_no_line(numbers, said):
    with pytest.raises(Fault, match=said) as fault:
        crosses.line_of(numbers)
    assert fault.value.status == 2


def test_points_of_the_map():
    from decimal import Decimal
    where = Place(Decimal(412000), Decimal("5765000.5"), 25832)
    assert crosses.local([412001000, 5765001000, -3, 412000000, 5765000500, 0], where) == [1000, 500, -3, 0, 0, 0]
    with pytest.raises(Fault, match="has parts of a millimetre"):
        crosses.local([0, 0, 0], Place(Decimal("0.0005")))
