"""Areas and volumes, by sums that must be right and by a second method."""
import random
from fractions import Fraction

import pytest
import second
import sfcgal
from regions import places_of
from rpstore import Fault, measures, outline, shape


def lines(*told):
    return "\n".join(told) + "\n"


def drawn_prism(rng, low=0):
    """A prism over a polygon that may cross itself, with corners, and its height."""
    corners = [(rng.randint(-40, 40), rng.randint(-40, 40)) for _ in range(rng.randint(3, 7))]
    height = rng.randint(3, 30)
    return corners, height, f"prism {low} {low + height} {len(corners)} {' '.join(f'{x} {y}' for x, y in corners)}"


def drawn_half(rng):
    numbers = [rng.randint(-9, 9) for _ in range(3)]
    return f"half {' '.join(map(str, numbers if any(numbers) else [1, 0, 0]))} {rng.randint(-60, 60)}"


def base_area(corners):
    """The area of the points above which an odd number of edges lies: between two neighbouring x at which edges meet or cross,
    the y of the edges over the middle tell it."""
    ends, places = list(zip(corners, corners[1:] + corners[:1])), places_of(corners)
    total = Fraction(0)
    for west, east in zip(places, places[1:]):
        x = (west + east) / 2
        over = sorted(ay + Fraction(by - ay, bx - ax) * (x - ax) for (ax, ay), (bx, by) in ends if min(ax, bx) < x < max(ax, bx))
        total += (east - west) * sum(high - low for low, high in zip(over[::2], over[1::2]))
    return total


def test_a_prism_is_its_base_times_its_height(seen):
    rng = random.Random(1)
    drawn = [drawn_prism(rng, rng.randint(-20, 20)) for _ in range(60)]
    wanted = [(base_area(corners), height) for corners, height, _ in drawn]
    found = {body.born: body for body in seen(lines(*(f"show {prism}" for _, _, prism in drawn))).bodies}
    assert sorted(area for area, _ in wanted)[30] > 500
    for number, (area, height) in enumerate(wanted, 1):
        assert (found[number].area, found[number].volume) == (area, area * height) if area else number not in found


@pytest.mark.parametrize("seed", range(40))
def test_children_have_the_volume_of_their_lot(seed, seen):
    """A lot is divided by up to three planes; the volumes of the children, each from its own parts, add up to that of the lot,
    and the areas of their sections to that of its section."""
    rng = random.Random(seed)
    children, rest = [], "name lot"
    for number in range(rng.randint(1, 3)):
        plane = drawn_half(rng)
        children.append(f"c{number} and {rest} {plane}")
        rest = f"minus {rest} {plane}"
    children.append(f"rest {rest}")
    height = rng.randint(0, 20)
    found = seen(lines(f"let lot = {drawn_prism(rng)[2]}", "register p name lot", f"subdivide p {len(children)} {' '.join(children)}",
                       "show name lot", f"section name lot {height}", *(f"section {child.partition(' ')[2]} {height}" for child in children)))
    whole, parts = ([body for body in found.bodies if body.is_lot == is_lot] for is_lot in (False, True))
    first, *others = found.slices
    # Where a child has no point the line is refused, and the lot is as it was.
    assert sum(body.volume for body in parts) == sum(body.volume for body in whole)
    assert sum(each.area for each in others) == first.area
    for each in found.slices:
        assert sum(outline.area(ring) for outer, holes in each.outlines for ring in (outer, *holes)) == each.area


def drawn_parts(rng):
    """The half-spaces of up to three convex bodies near each other: boxes with corners and edges cut off."""
    parts = []
    for _ in range(rng.randint(1, 3)):
        low = [rng.randint(0, 6) for _ in range(3)]
        high = [at + rng.randint(1, 8) for at in low]
        halves = [(1, 0, 0, -low[0]), (-1, 0, 0, high[0]), (0, 1, 0, -low[1]), (0, -1, 0, high[1]), (0, 0, 1, -low[2]), (0, 0, -1, high[2])]
        for _ in range(rng.randint(0, 3)):
            normal = [rng.randint(-3, 3) for _ in range(3)]
            if any(normal):
                halves.append((*normal, rng.randint(0, 6) - sum(a * rng.choice(ends) for a, *ends in zip(normal, low, high))))
        parts.append(halves)
    return parts


@pytest.mark.parametrize("seed", range(200))
def test_by_a_second_method(seed):
    parts = drawn_parts(random.Random(seed))
    cells = shape.apart(body for body in map(shape.cell, parts) if body)
    assert shape.volume(cells) == second.of_union(parts, second.volume)
    if cells:
        area = sum(map(outline.area, shape.footprint(shape.facets(cells))))
        solid = [part for part in parts if second.volume(part)]
        assert area == second.of_union(list(map(second.shadow, solid)), second.plan_area)


@pytest.mark.parametrize("seed", range(10))
def test_by_sfcgal(seed):
    parts = [part for part in drawn_parts(random.Random(seed)) if shape.cell(part)]
    if parts:
        whole = shape.volume(shape.apart(map(shape.cell, parts)))
        assert sfcgal.volume(map(second.corners, parts)) == pytest.approx(float(whole), rel=1e-9)


def test_an_area_is_rounded_once(seen):
    # A triangle with legs of 1/3 and 1 of a unit of 1 mm: its area is 1/6 square millimetre.
    [each] = seen("section and box 0 0 0 1 1 1 half -3 -1 0 1 0\n").slices
    assert each.area == Fraction(1, 6)


def test_a_table(seen):
    script = lines("rp 2", "register a or box 0.000 0.000 0.000 4.000 5.000 3.000 box 2.000 0.000 0.000 9.000 2.500 3.000", "layer rights",
                   "register way box 1.000 0.000 3.000 2.000 5.000 6.500", "section lot a 1.500", "section all 1.000")
    assert measures.table(seen(script)) == lines(
        "what,layer,line,from_m,to_m,area_m2,volume_m3", "a,base,1,0.000,3.000,32.500000,97.500000000", "way,rights,3,3.000,6.500,5.000000,17.500000000",
        "a,base,4,1.500,1.500,32.500000,")


def test_a_table_of_nothing(seen):
    with pytest.raises(Fault, match="no lot"):
        measures.table(seen("register a all\n"))
