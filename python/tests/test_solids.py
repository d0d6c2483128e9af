"""Solids of CityJSON become regions: exact, or refused with the face and how far it is off; and lots go out and come in the same."""
import json
import math
import random
import re
from decimal import Decimal
from fractions import Fraction

import bodies
import pytest
import regions
import sfcgal
import test_measures
from bodies import Writer, box, model, turned, upright
from rpstore import Fault, city, grid, lots, outline, place, script, shape, solid, solid_region, solids
from rpstore.rings import Unfit
from conftest import PROGRAM
from test_words import ran

needs_proj = pytest.mark.skipif(grid.MISSING is not None, reason="python3-pyproj is not there")
HEAD = ["# Grid: none. Local origin: E 0, N 0.",
        "# Coordinates are metres from the local origin, heights as in the model. The model names no grid; its numbers are taken as metres."]
ROOM = "prism 0.000 3.000 4 0.000 0.000 10.000 0.000 10.000 8.000 0.000 8.000"
CUBE = box((0, 0, 0), (10000, 8000, 3000))
GABLE, WING = bodies.faces_of(bodies.GABLE, bodies.GABLE_FACES), bodies.faces_of(bodies.WING, bodies.WING_FACES)


def made(text, **given):
    """The status, the lines after `rp 2`, and the lines on standard error."""
    status, told, said = solids.script_of(text, solids.Options(**{"bare": True, **given}))
    lines = told.split("\n")
    assert not told or (lines[0], lines[-1]) == ("rp 2", "")
    return status, lines[1:-1], said


def registered(text, **given):
    """The lines of the lots, of a model that is accepted."""
    status, lines, said = made(text, **given)
    assert (status, said, lines[:2]) == (0, [], HEAD)
    return lines[2:]


def refused(text, **given):
    status, lines, said = made(text, **given)
    assert (status, lines, said[-1]) == (4, [], "nothing was written: 1 of 1 cannot be registered: correct them in the model")
    return said[0]


def cubic_metres(lines):
    """The volume of each lot, by the rules of the language alone."""
    return {name: shape.volume(cells) / 10**9 for name, (cells, _) in regions.lots_of("\n".join(lines)).items()}


# ---- prisms

def test_a_box_is_a_prism():
    assert registered(model([CUBE])) == [f"register a {ROOM}"]


def test_an_l_shaped_storey_is_a_prism():
    """5*2 + 3*2 = 16 square metres, 2.5 m high."""
    plan = [(0, 0), (5000, 0), (5000, 2000), (3000, 2000), (3000, 4000), (0, 4000)]
    lines = registered(model([upright([plan], 3000, 5500)]))
    assert lines == ["register a prism 3.000 5.500 6 0.000 0.000 5.000 0.000 5.000 2.000 3.000 2.000 3.000 4.000 0.000 4.000"]
    assert cubic_metres(lines) == {"a": 40}


def test_a_court_is_taken_away():
    rings = [[(0, 0), (6000, 0), (6000, 4000), (0, 4000)], [(2000, 1000), (2000, 2000), (3000, 2000), (3000, 1000)]]
    lines = registered(model([upright(rings, 0, 3000)]))
    assert lines[0].startswith("register a minus prism 0.000 3.000 4 ") and cubic_metres(lines) == {"a": 69}


def test_a_shaft_as_an_inner_shell():
    """2*2*3 of 10*8*9 cubic metres."""
    lines = registered(model([box((0, 0, 0), (10000, 8000, 9000)), turned(box((2000, 2000, 2000), (4000, 4000, 5000)))]))
    assert " minus prism 2.000 5.000 " in lines[0] and cubic_metres(lines) == {"a": 708}


def test_a_stepped_house_is_a_prism_for_each_storey():
    """A tower of 4 m by 4 m and 9 m on a hall of 10 m by 8 m and 3 m, which bridges a way of 2 m by 8 m and 2 m: 240 + 96 - 32."""
    corners = {"a": (0, 0, 0), "b": (4000, 0, 0), "c": (4000, 0, 2000), "d": (6000, 0, 2000), "e": (6000, 0, 0), "f": (10000, 0, 0), "g": (10000, 0, 3000),
               "h": (4000, 0, 3000), "i": (4000, 0, 9000), "j": (0, 0, 9000)}
    corners.update({word.upper(): (x, 8000, z) for word, (x, _, z) in list(corners.items())})
    corners.update({"p": (0, 4000, 9000), "q": (4000, 4000, 9000), "r": (4000, 4000, 3000), "s": (0, 4000, 3000), "t": (0, 8000, 3000), "u": (10000, 8000, 3000)})
    faces = ["a b c d e f g h i j", "b a A B", "c b B C", "d c C D", "e d D E", "f e E F", "f F u g", "g u t s r h", "h r q i", "i q p j", "j p s t A a", "p q r s",
             "t u F E D C B A"]
    lines = registered(model([bodies.faces_of(corners, faces)]))
    assert len(re.findall("prism", lines[0])) == 4 and " half " not in lines[0] and cubic_metres(lines) == {"a": 304}


# ---- convex parts

def test_a_gabled_roof():
    lines = registered(model([GABLE]))
    assert lines == ["register a and and box 0.000 0.000 0.000 10.000 8.000 9.000 half 0 3 -4 24000 half 0 -3 -4 48000"]
    assert cubic_metres(lines) == {"a": 600}


def test_a_house_with_a_wing_and_a_valley():
    lines = registered(model([WING]))
    assert cubic_metres(lines) == {"a": 1026} and lines[0].count("box") == 3


def test_an_attic_with_a_cavity():
    """A room of 2*2*1 = 4 cubic metres under the ridge."""
    lines = registered(model([GABLE, turned(box((4000, 3000, 6500), (6000, 5000, 7500)))]))
    assert cubic_metres(lines) == {"a": 596}


def chimneys(count):
    """A gabled house 3 m long for each chimney of 1 m by 1 m, which leaves the roof at 7.5 to 8.25 m and ends at 10 m: over the
    roof each has 10 - 7.875 = 2.125 cubic metres."""
    wide = 3000 * count + 2000
    shell = bodies.faces_of([(wide if x else 0, y, z) for x, y, z in bodies.GABLE], bodies.GABLE_FACES)
    for west in range(2000, wide, 3000):
        plan = [(west, 2000), (west + 1000, 2000), (west + 1000, 3000), (west, 3000)]
        low, high = [(x, y, 6000 + y * 3 // 4) for x, y in plan], [(x, y, 10000) for x, y in plan]
        shell[5].append(low[::-1])
        shell.append([high])
        shell += [[[p, q, b, a]] for p, q, a, b in zip(low, low[1:] + low[:1], high, high[1:] + high[:1])]
    return shell


def test_faces_with_holes():
    assert cubic_metres(registered(model([chimneys(1)]))) == {"a": 300 + Fraction(17, 8)}
    assert cubic_metres(registered(model([chimneys(7)]))) == {"a": 23 * 60 + 7 * Fraction(17, 8)}


def test_many_parts_get_names():
    """Of 200 parts of five words each 170 fit a line with the words between them: 170*5 + 169 = 1,019."""
    part = "and and box 0.000 0.000 0.000 1.000 1.000 1.000 half 0 3 -4 24000 half 0 -3 -4 48000"
    lines = solid_region.lines("a", [part] * 200)
    assert [line.split(" ")[:2] for line in lines] == [["let", "a.1"], ["let", "a.2"], ["register", "a"]] and lines[2] == "register a or name a.1 name a.2"
    assert [line.count("box") for line in lines] == [170, 30, 0]
    with pytest.raises(Unfit, match="its id is too long for the names of its parts"):
        solid_region.lines("a" * 31, [part] * 200)
    with pytest.raises(Unfit, match="more than 1024 parts: 1025"):
        solid_region.lines("a", [part] * 1025)


def ring_of_32():
    """A convex ring along all ways of whole numbers up to 3, in the order of their angles."""
    ways = [(a, b) for a in range(-3, 4) for b in range(-3, 4) if math.gcd(a, b) == 1]
    ring, x, y = [], 0, 0
    for a, b in sorted(ways, key=lambda way: math.atan2(way[1], way[0])):
        x, y = x + 100 * a, y + 100 * b
        ring.append((x, y))
    return ring


def twice(ring):
    """Twice the area of a ring of a plan."""
    return sum(p[0] * q[1] - p[1] * q[0] for p, q in zip(ring, ring[1:] + ring[:1]))


def cone(ring):
    """A cone of 3 m on a round room of 2 m."""
    low, high, top = [(x, y, 0) for x, y in ring], [(x, y, 2000) for x, y in ring], (0, -1300, 5000)
    walls = [[[p, q, b, a]] for p, q, a, b in zip(low, low[1:] + low[:1], high, high[1:] + high[:1])]
    return [[low[::-1]], *walls, *([[p, q, top]] for p, q in zip(high, high[1:] + high[:1]))]


def test_a_part_with_many_faces_is_cut():
    """Of 32 walls and as many faces of the roof: the base times 2 + 3/3. No part has more than 26 faces."""
    lines = registered(model([cone(ring_of_32())]))
    assert cubic_metres(lines) == {"a": Fraction(twice(ring_of_32()), 2) * 3000 / 10**9}
    parts = regions.lots_of("\n".join(lines))["a"][0]
    assert max(len(part.faces) for part in parts) <= 26 and "".join(lines).count("box") == len(parts) > 1


# ---- several solids, and which are read

def test_several_solids_are_joined():
    two = [CUBE], [box((20000, 0, 0), (30000, 8000, 3000))]
    other = ROOM.replace("10.000", "30.000").replace(" 0.000 0.000 30", " 20.000 0.000 30").replace("30.000 8.000 0.000", "30.000 8.000 20.000")
    for form in ("MultiSolid", "CompositeSolid"):
        assert registered(Writer().add("a", *two, form=form).text()) == [f"register a or {ROOM} {other}"]


def test_the_finest_level_of_detail_or_the_one_that_is_named():
    text = Writer().add("a", [CUBE], lod="1.2").add("a", [GABLE], lod="2.2").text()
    assert "half" in registered(text)[0] and registered(text, lod="1.2") == [f"register a {ROOM}"]
    assert refused(text, lod="3") == "feature 1, a (it has 1.2, 2.2): no solid of the level of detail 3; name one that it has by --lod"


def test_parents_are_passed_over_and_give_their_attributes():
    """As in models of buildings with parts: the number of the building stands with the parent."""
    writer = Writer().add("b", children=["b-0"], number="7").add("b-0", [CUBE], parents=["b"], type="BuildingPart").add("road", type="Road")
    assert registered(writer.text(), kind=["BuildingPart"]) == [f"register b-0 {ROOM}"]
    assert registered(writer.text(), kind=["BuildingPart"], id="number", prefix="n") == [f"register n7 {ROOM}"]
    assert made(writer.text())[2][0] == "feature 2, road (no geometry): no solid"


def test_layers_attributes_and_sections():
    writer = Writer().add("a", [CUBE], layer="rights", owner="M\u00fcller", share=0.5).add("b", [CUBE]).add("c", [CUBE], layer="not one")
    status, lines, said = made(writer.text(), bare=False, leave_out=True, section=[Decimal(1), Decimal(3)])
    assert status == 1 and said[0].startswith("left out: feature 3, c ('not one'): the layer does not fit")
    assert lines[2:] == ["layer rights", f"register a {ROOM}", '# {"id": "a", "layer": "rights", "owner": "M\\u00fcller", "share": 0.5}', "layer base",
                         f"register b {ROOM}", '# {"id": "b"}', lines[8], "section lot a 1.000", "section lot b 1.000"]
    assert lines[8].startswith("# left out: feature 3, c: the layer does not fit")


def test_an_id_that_comes_twice():
    assert made(Writer().add("x", [CUBE], id="a").add("y", [CUBE], id="a", parents=["z"]).text())[2][0] == "feature 2, a (feature 1): the id is that of a feature before; give it another id, or take --number with --prefix"


def test_a_model_in_lines():
    """CityJSONSeq: the first line has the transform, each other one a feature with vertices of its own."""
    first, second = (json.loads(Writer().add(key, [solid]).text()) for key, solid in (("a", CUBE), ("b", GABLE)))
    head = {**first, "CityObjects": {}, "vertices": []}
    lines = [head, *({"type": "CityJSONFeature", "CityObjects": each["CityObjects"], "vertices": each["vertices"]} for each in (first, second))]
    text = "".join(json.dumps(each) + "\n" for each in lines).encode()
    assert [line.split(" ")[1] for line in registered(text)] == ["a", "b"]


# ---- numbers

def test_numbers_are_those_that_the_file_spells():
    """As floats 0.001 times 412345678 and such would be off, and the walls with it."""
    translate = [Decimal("85021.4"), Decimal("446810.123"), Decimal("-1.27")]
    text = model([CUBE], translate=["T0", "T1", "T2"]).decode()
    for number, each in enumerate(translate):
        text = text.replace(f'"T{number}"', str(each))
    _, lines, said = made(text.encode())
    assert not said and lines[0] == "# Grid: none. Local origin: E 85000, N 447000."
    assert lines[2] == "register a prism -1.270 1.730 4 21.400 -189.877 31.400 -189.877 31.400 -181.877 21.400 -181.877"
    _, lines, _ = made(text.encode(), origin=[Decimal("85021.4"), Decimal("446810.123")])
    assert lines[2] == f"register a {ROOM}".replace("prism 0.000 3.000", "prism -1.270 1.730")


def test_corners_are_rounded_to_the_millimetre_and_said_so():
    fine = [[[tuple(10 * number + (number > 0) * 4 for number in corner) for corner in ring] for ring in face] for face in CUBE]
    with pytest.raises(Fault, match="its numbers may be degrees: .* --from metres says that they are metres"):
        made(model([fine], scale="0.0001"))
    status, lines, said = made(model([fine], scale="0.0001"), source="metres")
    assert (status, said) == (0, []) and lines[2:] == ["# Rounded to the millimetre: 12 of 24 coordinates.", f"register a {ROOM}"]


@needs_proj
def test_the_grid_of_the_model():
    wide = Writer(grid="https://www.opengis.net/def/crs/EPSG/0/7415").add("a", [CUBE])
    assert made(wide.text())[1][0] == "# Grid: EPSG:28992. Local origin: E 0, N 0."
    assert made(wide.text(), source="EPSG:25832")[1][0] == "# Grid: EPSG:25832. Local origin: E 0, N 0."
    with pytest.raises(Fault, match="in the unit degree, of WGS 84, and a register is in metres") as fault:
        made(Writer(grid="urn:ogc:def:crs:EPSG::4979").add("a", [CUBE]).text())
    assert fault.value.status == 5
    with pytest.raises(Fault, match="in the unit US survey foot"):
        made(Writer(grid="EPSG:2263").add("a", [CUBE]).text())


# ---- what is refused

def moved(solid, place, to):
    """A shell with one corner somewhere else."""
    return [[[to if corner == place else corner for corner in ring] for ring in face] for face in solid]


NOT_PLANE = re.compile(r"feature 1, a \(face 2 at 0\.000 0\.000 3\.000: the nearest plane found lies ([0-9]+/[0-9]+) mm along z from its corner "
                       r"[0-9. ]+; --planar 0\.251 or more may do\): a face is not plane in whole millimetres")


def test_a_face_that_is_not_plane_is_refused_by_how_much():
    """One corner of the ceiling is 1 mm higher. No plane is nearer than a quarter of it to all four corners: for each plane the height
    over it of two opposite corners less that of the two others is 1 mm."""
    bent = model([moved(CUBE, (0, 8000, 3000), (0, 8000, 3001))])
    found = NOT_PLANE.fullmatch(refused(bent))
    assert found and Fraction(1, 4) <= Fraction(found[1]) < Fraction(251, 1000)
    assert refused(bent, planar=Decimal("0.25")) == found[0]
    status, lines, _ = made(bent, planar=Decimal("0.251"))
    assert status == 0 and lines[2].startswith("# Moved to make planes whole, in mm: 4 of 8 corners, by at most 0.251: ") and cubic_metres(lines)["a"] * 10**9 - 240 * 10**9 < 80 * 10**6


def test_corners_that_are_moved_are_told():
    """The level plane through three corners of the ceiling does."""
    status, lines, said = made(model([moved(CUBE, (0, 8000, 3000), (0, 8000, 3001))]), planar=Decimal(1))
    assert (status, said) == (0, ["feature 1, a (1, by at most 1.000 mm): corners were moved to make planes whole"])
    assert lines[2:] == ["# Moved to make planes whole, in mm: 1 of 8 corners, by at most 1.000: 0.000 8.000 3.001 by 1.000",
                         "register a box 0.000 0.000 0.000 10.000 8.000 3.000"]


def test_a_plane_with_numbers_that_are_too_great():
    """A roof whose normal no `half` has; a plane less than a micrometre away does."""
    base = [(0, 0, 0), (6001, 13, 0), (29, 4003, 0)]
    top = [(0, 0, 5003), (6001, 13, 6011), (29, 4003, 7020)]
    shell = [[base[::-1]], [top]] + [[[p, q, b, a]] for p, q, a, b in zip(base, base[1:] + base[:1], top, top[1:] + top[:1])]
    told = refused(model([shell]))
    # The normal of the roof: u x v with u = (6001, 13, 1008) and v = (29, 4003, 2017).
    normal = (13 * 2017 - 1008 * 4003, 1008 * 29 - 6001 * 2017, 6001 * 4003 - 13 * 29)
    assert math.gcd(*normal) == 1 and max(map(abs, normal)) == 24021626 > 2**24
    assert ": the plane of a face has numbers over 16777216, which no `half` may have" in told and "face 2 at 0.000 0.000 5.003: 24021626; " in told
    assert told.endswith("--planar 0.001 or more may do): the plane of a face has numbers over 16777216, which no `half` may have")
    status, lines, said = made(model([shell]), planar=Decimal("0.001"))
    assert status == 0 and lines[2].endswith(" by 0.001") and said == ["feature 1, a (3, by at most 0.001 mm): corners were moved to make planes whole"]
    # Its base times the mean of the heights.
    whole = Fraction(6001 * 4003 - 13 * 29, 2) * (5003 + 6011 + 7020) / 3
    assert abs(cubic_metres(lines)["a"] * 10**9 - whole) < 6001 * 4003 / 2 / 1000


def test_a_house_that_was_turned_and_rounded():
    """By 3, 4, 5 over 1.001: all corners are a bit off. No corner moves further than is allowed, and the volume stays that of the
    house, within its surface of 460 square metres times that."""
    turn = [[[(round((3 * x - 4 * y) / 5.005), round((4 * x + 3 * y) / 5.005), z) for x, y, z in ring] for ring in face] for face in WING]
    assert " other faces have none either; --planar 0." in refused(model([turn]))
    status, lines, said = made(model([turn]), planar=Decimal(1))
    found = re.fullmatch(r"feature 1, a \((\d+), by at most 0\.(\d+) mm\): corners were moved to make planes whole", said[0])
    assert status == 0 and found and lines[2].startswith(f"# Moved to make planes whole, in mm: {found[1]} of 17 corners, by at most 0.{found[2]}: ")
    assert abs(cubic_metres(lines)["a"] - Fraction(1026) / Fraction(1001, 1000) ** 2) < Fraction(46, 100)


def drawn_boxes(rng):
    """What two to four boxes have together, as bodies that share no volume and hang together."""
    cells = []
    for _ in range(rng.randint(2, 4)):
        low = [rng.randint(0, 6) for _ in range(3)]
        cells += regions.minus(regions.between(low, [at + rng.randint(1, 5) for at in low]), cells)
    return max(city.hanging(cells), key=len)


def turning(rng, scale):
    """A function that turns a point about two axes, scales it and rounds it to whole millimetres."""
    a, b = (rng.uniform(0, 6) for _ in range(2))

    def turned_point(point):
        x, y, z = (number / point[3] for number in point[:3])
        x, y = x * math.cos(a) - y * math.sin(a), x * math.sin(a) + y * math.cos(a)
        y, z = y * math.cos(b) - z * math.sin(b), y * math.sin(b) + z * math.cos(b)
        return tuple(round(scale * number) for number in (x, y, z))

    return turned_point


# Of 41, 56, 62 and 109 two faces lie nearly in one plane: with planes of their own they would meet far from all corners.
@pytest.mark.parametrize("seed", [*range(12), 41, 56, 62, 109])
def test_drawn_solids_that_are_turned_and_rounded(seed):
    """Boxes in each other at a slant: no face with more than three corners is plane then. Corners move by 5 mm at most, and the volume
    changes by less than 5 mm times the surface."""
    rng, scale = random.Random(seed), 1500
    cells = drawn_boxes(rng)
    shells, at = city.shells(cells), turning(rng, scale)
    if shells:
        status, lines, said = made(model([[[list(map(at, ring)) for ring in face] for face in shell] for shell in shells]), planar=Decimal(5))
        assert status == 0 and re.fullmatch(r"feature 1, a \(\d+, by at most [0-4]\.\d+ mm\): corners were moved to make planes whole", said[0])
        area = sum(shape_area(facet) for facet in shape.facets(cells)) * scale**2
        assert abs(cubic_metres(lines)["a"] * 10**9 - shape.volume(cells) * scale**3) < 5 * area


def shape_area(facet):
    """The area of a facet of boxes, which is that of its projection along its one axis."""
    flat = shape.Flattened(facet.half, -1)
    return abs(sum(outline.area(flat.there(ring)) for ring in facet.rings))


def test_neighbours_keep_their_wall_when_corners_are_moved():
    """Two attics share a bent wall: each is made without the other, and neither has a point of the other."""
    wall = [(5000, 0, 0), (5001, 8000, 0), (5000, 8000, 3000), (5000, 0, 3001)]
    west = bodies.faces_of([(0, 0, 0), wall[0], wall[1], (0, 8000, 0), (0, 0, 3000), wall[3], wall[2], (0, 8000, 3000)],
                           ["3 2 1 0", "4 5 6 7", "0 1 5 4", "1 2 6 5", "2 3 7 6", "3 0 4 7"])
    east = bodies.faces_of([wall[0], (9000, 0, 0), (9000, 8000, 0), wall[1], wall[3], (9000, 0, 3000), (9000, 8000, 3000), wall[2]],
                           ["3 2 1 0", "4 5 6 7", "0 1 5 4", "1 2 6 5", "2 3 7 6", "3 0 4 7"])
    status, lines, _ = made(Writer().add("a", [west]).add("b", [east]).text(), planar=Decimal(3))
    found = regions.lots_of("\n".join(lines))
    assert status == 0 and not regions.common(found["a"][0], found["b"][0])


# A solid, and what is told of it.
OPEN = "a surface is not closed: an edge has more faces on one side than on the other"
CROSSED = "a surface crosses or touches itself, or is turned inside out"
UNFIT = [
    ([CUBE[1:]], f"feature 1, a (the surface, 4 edges; the first from 0.000 0.000 0.000 to 0.000 8.000 0.000): {OPEN}"),
    ([CUBE[:1] + CUBE], f"feature 1, a (the surface, 4 edges; the first from 0.000 0.000 0.000 to 0.000 8.000 0.000): {OPEN}"),
    ([CUBE, box((1000, 1000, 1000), (2000, 2000, 2000))[1:]], "feature 1, a (the surface of shell 2, 4 edges; "),
    ([moved(CUBE, (0, 0, 3000), (20000000, 0, 3000))], "feature 1, a (20000.000 0.000): a corner is more than 8388.608 m east"),
    ([[face for face in box((0, 0, 0), (1, 1, 1))] + turned(box((0, 0, 0), (1, 1, 1)))], "feature 1, a (the surface): a surface encloses no volume"),
    # A cavity that is not inside, and one that reaches out.
    ([CUBE, turned(box((20000, 0, 0), (21000, 1000, 1000)))], f"feature 1, a: {CROSSED}"),
    ([CUBE, turned(box((9000, 1000, 1000), (11000, 2000, 2000)))], f"feature 1, a: {CROSSED}"),
    ([GABLE, turned(box((4000, 3000, 8000), (6000, 5000, 9500)))], "feature 1, a (solid: it goes 0 times round 5.000 4.000 9.500"),
    # Two boxes in each other, as one surface.
    ([CUBE + box((1000, 1000, 1000), (2000, 2000, 2000))], f"feature 1, a: {CROSSED}"),
    ([GABLE + box((1000, 1000, 1000), (2000, 2000, 2000))], "feature 1, a (solid: it goes 2 times round "),
]


@pytest.mark.parametrize("shells, told", UNFIT)
def test_what_is_no_solid(shells, told):
    assert refused(model(shells)).startswith(told)


def test_a_face_that_crosses_itself():
    """A bow tie as a ceiling and floor: its two triangles go round in different ways."""
    plan = [(0, 0), (4000, 3000), (4000, 0), (0, 1000)]
    assert refused(model([upright([plan], 0, 3000)])).endswith(": a face crosses itself")


def test_a_surface_that_crosses_itself_is_found_where_corners_are_moved():
    """A bent attic with a cavity that is not inside of it, or that reaches out, and one with a box in it as one surface."""
    bent = moved(GABLE, (10000, 4000, 9000), (10000, 4000, 9001))
    for shells in ([bent, turned(box((20000, 0, 0), (21000, 1000, 1000)))], [bent + box((1000, 1000, 1000), (2000, 2000, 2000))],
                   [bent, turned(box((4000, 3000, 8000), (6000, 5000, 9500)))]):
        told = refused(model(shells), planar=Decimal(1))
        assert CROSSED in told or "planes would meet in a corner that the model does not have" in told
    assert made(model([bent, turned(box((4000, 3000, 6500), (6000, 5000, 7500)))]), planar=Decimal(1))[0] == 0


def test_a_face_whose_turns_cancel_out():
    """A bow tie of two equal triangles has no area on the whole, and is not left out for it."""
    plan = [(0, 0), (4000, 3000), (4000, 0), (0, 3000)]
    assert "a face crosses itself" in refused(model([upright([plan], 0, 3000) + box((10000, 0, 0), (11000, 1000, 1000))]))


def test_a_shell_that_is_inside_out_is_turned():
    assert registered(model([turned(GABLE), box((4000, 3000, 6500), (6000, 5000, 7500))])) == registered(model([GABLE, turned(box((4000, 3000, 6500), (6000, 5000, 7500)))]))


# ---- what is no CityJSON

def changed(**given):
    return json.dumps({**json.loads(model([CUBE])), **given}).encode()


NO_MODEL = [b"", b"x", b"[]", b"{", b'{"type": "CityJSON"}', b'{"a":' + b"[" * 100000, changed(version="3.0"), changed(type="Feature"), changed(CityObjects=[]),
            changed(CityObjects={}), changed(vertices=[["a", 0, 0]]), changed(transform={"scale": [0, 0, 0], "translate": [0, 0, 0]}), changed(transform=1),
            changed(CityObjects={"a": 1}), changed(vertices=7), model([CUBE]).replace(b"0.001", b"1e999"), model([CUBE]).replace(b"0.001", b"NaN"),
            changed(vertices=[[10**20, 0, 0]]), model([CUBE]).replace(b"0.001", b"1e-999999999"), model([CUBE]).replace(b"0.001", b"0e999999999")]


@pytest.mark.parametrize("text", NO_MODEL)
def test_what_is_no_model(text):
    with pytest.raises(Fault) as found:
        made(text)
    assert found.value.status == 3 and "Nothing was written" in str(found.value)


@pytest.mark.parametrize("boundaries", [None, 7, [], [[]], [[[]]], [[[[0, 1, 99]]]], [[[[0, 1, -1]]]], [[[[0, 1, True]]]], [[[0, 1, 2]]], "x", {"a": []}, [[[[]]]]])
def test_boundaries_that_do_not_read(boundaries):
    geometry = {"type": "Solid", "lod": "2", "boundaries": boundaries}
    assert refused(changed(CityObjects={"a": {"type": "Building", "geometry": [geometry]}})).startswith("feature 1, a")


def test_the_words_of_the_command_line(tmp_path):
    path = tmp_path / "house.city.json"
    path.write_bytes(Writer().add("1/2", [GABLE], floors=2).text())
    status, told, said = ran(["solids", str(path), "--prefix", "n", "--bare", "--section", "7"])
    assert (status, said) == (0, "") and told.decode().split("\n")[3:] == [
        "register n1_2 and and box 0.000 0.000 0.000 10.000 8.000 9.000 half 0 3 -4 24000 half 0 -3 -4 48000", "section lot n1_2 7.000", ""]
    for word in ("0", "-1", "1001", "x", "1.1234567"):
        assert ran(["solids", str(path), f"--planar={word}"])[0] == 2
    assert ran(["solids", str(path) + "x"])[0] == 3


# ---- lots go out and come in

def again(found):
    """The script of the lots that `found` shows, by way of CityJSON; all of them are taken."""
    status, text, said = solids.script_of(city.text(found).encode(), solids.Options())
    assert (status, said) == (0, [])
    return text


@needs_proj
@pytest.mark.parametrize("name", ["plan", "block", "flats", "escape"])
def test_examples_go_out_and_come_in_the_same(name, root):
    """By the rules of the language alone, with the place on the map and the layers."""
    text = (root / f"examples/{name}.rp").read_text()
    found, where = regions.lots_of(text), place.Place(Decimal("412000.5"), Decimal(5765000), 25832)
    back = again(regions.seen(text, where))
    assert back.split("\n")[1] == where.note()
    lots_back = regions.lots_of(back)
    assert list(lots_back) == list(found)
    for lot, (cells, layer) in found.items():
        assert lots_back[lot][1] == layer and regions.are_equal(cells, lots_back[lot][0])


def drawn(seed):
    """A lot of a few convex bodies near each other, or of a prism that is cut, with corners that are mostly no whole units."""
    rng = random.Random(seed)
    if seed % 2:
        parts = ["and " * (len(part) - 1) + " ".join(f"half {' '.join(map(str, half))}" for half in part) for part in test_measures.drawn_parts(rng)]
        return "or " * (len(parts) - 1) + " ".join(parts)
    return f"minus and {test_measures.drawn_prism(rng)[2]} {test_measures.drawn_half(rng)} {test_measures.drawn_prism(rng, rng.randint(-10, 10))[2]}"


def places_on(cells):
    """Corners of bodies, the middles of their edges and of their faces, and what is in the middle of them."""
    for body in cells:
        for _, polygon in body.faces:
            corners = [tuple(Fraction(number, point[3]) for number in point[:3]) for point in polygon]
            yield from corners
            yield from (tuple((a + b) / 2 for a, b in zip(p, q)) for p, q in zip(corners, corners[1:]))
            yield tuple(sum(axis) / len(corners) for axis in zip(*corners))
        yield tuple(Fraction(number, solid.middle(body)[3]) for number in solid.middle(body)[:3])


@pytest.mark.parametrize("seed", range(30))
def test_drawn_lots_go_out_and_come_in_the_same(seed):
    """As bodies, and at points of their boundaries by the rules for these."""
    expression = drawn(seed)
    cells = regions.read(expression.split(" "), {})
    if cells:
        found = lots.Seen([lots.Body("a", True, "base", 1, (), cells)], [], place.Place(Decimal("412000.5"), Decimal(5765000)), 0, "", 2)
        back = again(found)
        [line] = [line for line in back.split("\n") if line.startswith("register a ")]
        assert regions.are_equal(cells, regions.lots_of(back)["a"][0])
        points = sorted(set(places_on(cells)))
        for at in random.Random(seed).sample(points, min(60, len(points))):
            assert regions.has(expression.split(" "), at) == regions.has(line.split(" ")[2:], at)


def test_corners_that_are_not_whole_need_the_planes():
    """The tip of this wedge is at (1/3, 0, 0): the file has it to the micrometre, and the plane in an attribute."""
    cells = regions.read("and box 0 0 0 10 10 10 half 3 1 0 -1".split(" "), {})
    found = lots.Seen([lots.Body("a", True, "base", 1, (), cells)], [], place.Place(Decimal("0.5"), Decimal(0)), 0, "", 2)
    made_of = json.loads(city.text(found))
    attributes = made_of["CityObjects"]["a"]["attributes"]
    # In millimetres on the map 3x + y is 3*500 + 1 there.
    assert "3 1 0 -1501" in attributes["planes"] and regions.are_equal(cells, regions.lots_of(again(found))["a"][0])
    attributes["planes"].remove("3 1 0 -1501")
    assert "the file states no plane for a face whose corners are not whole" in refused(json.dumps(made_of).encode())
    attributes["planes"].append("3 1 0 -1502")
    assert "the file states no plane for a face whose corners are not whole" in refused(json.dumps(made_of).encode())


def test_corners_that_look_whole_need_the_planes_too():
    """This wall goes through x = 1.0000003 and x = 0.999997, which to the micrometre are 1."""
    cells = regions.read("and box 0 0 0 10 10 10 half 3000000 1 0 -3000001".split(" "), {})
    found = lots.Seen([lots.Body("a", True, "base", 1, (), cells)], [], place.Place(), 0, "", 2)
    assert "half 3000000 1 0 -3000001" in again(found) and regions.are_equal(cells, regions.lots_of(again(found))["a"][0])


def equal_to(text, back, program):
    """What the store says of each lot of a script against that of the same id in another one."""
    lines = [line.split(" ", 2) for line in back.split("\n")]
    names = [" ".join(line) for line in lines if line[0] == "let"]
    asked = [f"rcc lot {line[1]} {line[2]}" for line in lines if line[0] == "register"]
    answers = list(script.script_of(text).answers(names + asked, program))
    return {answer.command.named[0][1]: answer.verdict for answer in answers[len(names):]}


@needs_proj
@pytest.mark.parametrize("name", ["plan", "block", "tower", "floor", "escape", "tunnel", "access", "resurvey"])
def test_the_store_says_that_lots_come_in_the_same(name, root, store, seen):
    """`rcc` of each live lot and what came in under its id is EQ; and the store takes the new script."""
    text = store((root / f"examples/{name}.rp").read_text(), "upgrade")
    found = seen(text.decode())
    back = again(found)
    assert equal_to(text, back, PROGRAM) == {body.label: "EQ" for body in found.bodies if body.is_lot}
    told = store(back, "run", "brief").decode()
    assert told.count("\n= ok\n") >= len(found.bodies) and "refused" not in told


CONE = cone(ring_of_32())
KNOWN = [([CUBE], 240), ([CONE], Fraction(3 * twice(ring_of_32()), 2 * 10**6)), ([GABLE], 600), ([WING], 1026), ([GABLE, turned(box((4000, 3000, 6500), (6000, 5000, 7500)))], 596),
         ([chimneys(3)], 660 + 3 * Fraction(17, 8))]


@pytest.mark.parametrize("shells, wanted", KNOWN)
def test_the_store_measures_what_is_known_by_hand(shells, wanted, store, seen):
    """The volume by the parts that the store shows of the lot; and the lot goes out and comes in the same."""
    text = solids.script_of(model(shells), solids.Options())[1]
    [body] = seen(text).bodies
    assert body.volume == wanted * 10**9
    assert equal_to(text.encode(), again(seen(text)), PROGRAM) == {"a": "EQ"}


# ---- another tool

SOLIDS = {"gable": ([GABLE], 600), "wing": ([WING], 1026), "chimneys": ([chimneys(2)], 480 + 2 * 2.125)}


@pytest.mark.parametrize("name", SOLIDS)
def test_volumes_by_sfcgal(name):
    """Of the faces of the model, and of the parts that were made of it."""
    [shell], wanted = SOLIDS[name]
    polygons = [[[[number / 1000 for number in corner] for corner in (*ring, ring[0])] for ring in face] for face in shell]
    assert sfcgal.solid(polygons) == pytest.approx(wanted, rel=1e-9)
    parts = regions.lots_of("\n".join(registered(model([shell]))))["a"][0]
    corners = [[tuple(Fraction(number, point[3]) / 1000 for number in point[:3]) for point in part.points] for part in parts]
    assert sfcgal.volume(corners) == pytest.approx(wanted, rel=1e-9)
