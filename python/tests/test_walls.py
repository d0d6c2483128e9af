"""What lots have in common with those that touch them, by hand and by shapely."""
import csv
import io
import json
import random

import buildings
import pytest
from conftest import PROGRAM
from rpstore import report, script, shape, touch, walls, walls_forms
from test_view import box, lot
from test_words import ran


def between(one, other):
    found = touch.contact_of(lot("a", *one), lot("b", *other))
    return found.kind, float(found.wall) / 10**6, float(found.edge) / 1000


@pytest.mark.parametrize("other, wanted", [
    ([box(4, 0, 0, 9, 5, 3)], ("wall", 15, 0)), ([box(4, 1, 1, 9, 2, 9)], ("wall", 2, 0)), ([box(4, 5, 0, 9, 9, 3)], ("edge", 0, 3)),
    ([box(4, 5, 2, 9, 9, 9)], ("edge", 0, 1)), ([box(4, 5, 3, 9, 9, 9)], ("corner", 0, 0)), ([box(5, 0, 0, 9, 5, 3)], ("nothing", 0, 0)),
    ([box(0, 0, 3, 4, 5, 6)], ("wall", 20, 0)), ([box(4, 0, 0, 9, 2, 3), box(4, 2, 0, 9, 5, 1)], ("wall", 9, 0)),
    ([box(4, 5, 0, 9, 9, 2), box(4, 5, 2, 6, 9, 9)], ("edge", 0, 3)), ([box(4, 5, 0, 9, 9, 1), box(4, -2, 0, 6, 0, 2)], ("edge", 0, 3))])
def test_boxes_by_hand(other, wanted):
    one = [box(0, 0, 0, 4, 5, 3)]
    assert between(one, other) == pytest.approx(wanted) and between(other, one) == pytest.approx(wanted)


def test_slanted_walls_by_hand():
    # The slope from (4, z = 0) to (0, z = 3): 5 m long, and 7 m deep.
    low = shape.cell([(1, 0, 0, 0), (0, 1, 0, 0), (0, -1, 0, 7000), (0, 0, 1, 0), (-3, 0, -4, 12000)])
    high = shape.cell([(-1, 0, 0, 4000), (0, 1, 0, 0), (0, -1, 0, 7000), (0, 0, -1, 3000), (3, 0, 4, -12000)])
    assert between([low], [high]) == pytest.approx(("wall", 35, 0))
    # A wedge that stands on its edge on a floor, in the middle of it; and a spike on its tip.
    wedge = shape.cell([(-1, 0, 1, 2000), (1, 0, 1, -2000), (0, 1, 0, -1000), (0, -1, 0, 3000), (0, 0, -1, 4000)])
    assert between([box(0, 0, -1, 4, 5, 0)], [wedge]) == pytest.approx(("edge", 0, 2))
    spike = shape.cell([(-1, 0, 1, 2000), (1, 0, 1, -2000), (0, -1, 1, 2000), (0, 1, 1, -2000), (0, 0, -1, 4000)])
    assert between([box(0, 0, -1, 4, 5, 0)], [spike]) == ("corner", 0, 0)


def test_a_town_against_shapely(store):
    """Upright walls: the length that two plans have in common times the heights that they have in common; and floors."""
    geometry = pytest.importorskip("shapely.geometry", reason="python3-shapely is not there")
    text = "\n".join(buildings.town(1, 4)) + "\n"
    plans = {}
    for line in text.splitlines()[1:]:
        words = line.split(" ")
        corners = [float(word) for word in words[6:]]
        plans[words[1]] = geometry.Polygon(list(zip(corners[::2], corners[1::2]))), float(words[3]), float(words[4])
    found = walls.walls(script.script_of(text.encode()), [], PROGRAM)
    assert found.run.check == "accepted" and not found.limited
    told = {frozenset((each.lot.label, each.other.label)): (each.contact.kind, float(each.contact.wall) / 10**6, float(each.contact.edge) / 1000)
            for each in found.pairs}
    labels, kinds = list(plans), set()
    for at, one in enumerate(labels):
        for other in labels[at + 1:]:
            (p, a, b), (q, c, d) = plans[one], plans[other]
            side, high, cover = p.intersection(q), min(b, d) - max(a, c), 0
            if high < 0 or p.distance(q) > 1e-9:
                assert frozenset((one, other)) not in told
                continue
            cover, along = side.area, side.length if side.area < 1e-9 else 0
            kind, wall, edge = told[frozenset((one, other))]
            kinds.add(kind)
            if high > 0:
                assert wall == pytest.approx(along * high, abs=1e-6) and (kind == "wall" if along > 1e-9 else edge == pytest.approx(high))
            else:
                assert wall == pytest.approx(cover if cover > 1e-9 else 0, abs=1e-6) and (kind == "wall" if cover > 1e-9 else kind in ("edge", "corner"))
                if kind == "edge":
                    assert edge == pytest.approx(along)
    assert kinds == {"wall", "edge", "corner"}


@pytest.mark.parametrize("seed", range(6))
def test_parts_of_a_cut(seed):
    """What a plane cuts of a box meets in the section: its area by the corners, whatever parts the sides fall into."""
    rng = random.Random(seed)
    half = (rng.randint(-5, 5), rng.randint(-5, 5), rng.randint(1, 5), 0)
    whole = box(-3, -3, -3, 3, 3, 3)
    one, other = whole.cut(half), whole.cut(shape.turned(half))
    [section] = [ring for face, ring in one.faces if face == half]
    third = (rng.randint(-5, 5), rng.randint(1, 5), rng.randint(-5, 5), rng.randint(-3000, 3000))
    pieces = [piece for piece in (one.cut(third), one.cut(shape.turned(third))) if piece]
    # Heron's formula with floating-point numbers.
    first = [number / section[0][3] for number in section[0][:3]]
    fan = 0
    for p, q in zip(section[1:], section[2:]):
        u, v = ([number / point[3] - a for number, a in zip(point[:3], first)] for point in (p, q))
        fan += sum((u[k - 2] * v[k - 1] - u[k - 1] * v[k - 2]) ** 2 for k in range(3)) ** 0.5 / 2
    assert between(pieces, [other])[1] == pytest.approx(fan / 10**6)


SCRIPT = b"""rp 2
register a box 0.000 0.000 0.000 4.000 5.000 3.000
register b box 4.000 0.000 0.000 9.000 5.000 3.000
register c box 4.000 5.000 0.000 9.000 9.000 3.000
register d box 20.000 0.000 0.000 21.000 1.000 1.000
"""


def test_the_words(store):
    status, out, said = ran(["walls"], SCRIPT)
    assert status == 0 and said == "rpstore-gis: 2 walls, 1 edge, 0 corners; report accepted\n"
    assert [tuple(row.values()) for row in csv.DictReader(io.StringIO(out.decode()))] == [
        ("a", "b", "base", "wall", "15.000000", ""), ("a", "c", "base", "edge", "0.000000", "3.000000"), ("b", "c", "base", "wall", "15.000000", "")]
    assert ran(["walls", "--lot", "c"], SCRIPT)[1].count(b"\n") == 3 == ran(["walls", "--lot", "c", "--lot", "c"], SCRIPT)[1].count(b"\n")
    assert ran(["walls", "--lot", "d"], SCRIPT)[1] == b"lot,other,layer,meets_at,wall_m2,edge_m\n"
    assert ran(["walls", "--lot", "x"], SCRIPT) == (2, b"", "rpstore-gis: no live lot is called x: `list` in the script shows which are. Nothing was asked.\n")
    assert ran(["walls", "--lot", "a1"], SCRIPT) == (2, b"", "rpstore-gis: no live lot is called a1; did you mean 'a'? Nothing was asked.\n")
    assert ran(["walls", "--asof", "2"], SCRIPT)[1].count(b"\n") == 2


def test_a_report_has_no_lines_to_ask_after(store):
    assert ran(["walls"], store(SCRIPT.decode()))[::2] == (
        2, "rpstore-gis: walls needs a script, and this is a report: name the script that was run. Nothing was written.\n")


def test_a_root_is_right_to_forty_digits():
    assert touch.root(touch.Fraction(49, 4)) == touch.Fraction(7, 2)
    assert touch.root(touch.Fraction(2)) ** 2 < 2 < (touch.root(touch.Fraction(2)) + touch.Fraction(1, 10**40)) ** 2


# ---- as features

FLATS = b"""rp 2
# Grid: EPSG:25832. Local origin: E 412000, N 5765000.
register a box 0.000 0.000 0.000 4.000 5.000 3.000
register b box 4.000 0.000 1.000 9.000 5.000 3.000
register c box 4.000 5.000 0.000 9.000 9.000 3.000
register d box 4.000 5.000 3.000 9.000 9.000 6.000
"""


def test_polygons_of_a_plane_have_one_outline():
    """A wall round a niche: of eight parts one polygon with a hole, and an area apart from it."""
    niche = [box(4, x, z, 9, x + 1, z + 1) for x in range(3) for z in range(3) if (x, z) != (1, 1)] + [box(4, 4, 0, 9, 5, 1)]
    found = touch.contact_of(lot("a", box(0, 0, 0, 4, 5, 3)), lot("b", *niche))
    outlines = list(touch.outlines(found.walls))
    assert {half for half, _, _ in outlines} == {(-1, 0, 0, 4000)}
    assert sorted((len(outer), [len(hole) for hole in holes]) for _, outer, holes in outlines) == [(4, []), (4, [4])]
    assert sum(touch.area(half, outer) - sum(touch.area(half, hole) for hole in holes) for half, outer, holes in outlines) == 9 * 10**6 == found.wall


def test_walls_edges_and_corners_as_features(store):
    geometry = pytest.importorskip("shapely.geometry", reason="python3-shapely is not there")
    status, out, said = ran(["walls", "--geojson"], FLATS)
    found = json.loads(out)
    assert status == 0 and said == "rpstore-gis: 3 walls, 2 edges, 1 corner; report accepted\n" and found["crs"]["properties"]["name"].endswith(":25832")
    told = {(each["properties"]["lot"], each["properties"]["other"]): each for each in found["features"]}
    assert len(told) == 6 == len(found["features"])
    assert {pair: (each["geometry"]["type"], each["properties"]["area"], each["properties"]["length"]) for pair, each in told.items()} == {
        ("a", "b"): ("Polygon", 10, 0), ("a", "c"): ("LineString", 0, 3), ("a", "d"): ("Point", 0, 0), ("b", "c"): ("Polygon", 10, 0),
        ("b", "d"): ("LineString", 0, 5), ("c", "d"): ("Polygon", 20, 0)}
    wall = geometry.shape(told["a", "b"]["geometry"])
    assert sorted(set(wall.exterior.coords)) == [(412004, 5765000, 1), (412004, 5765000, 3), (412004, 5765005, 1), (412004, 5765005, 3)]
    assert sorted(geometry.shape(told["a", "c"]["geometry"]).coords) == [(412004, 5765005, 0), (412004, 5765005, 3)]
    assert told["a", "d"]["geometry"]["coordinates"] == [412004, 5765005, 3]
    assert geometry.shape(told["c", "d"]["geometry"]).area == 20
    assert (told["a", "b"]["properties"]["base"], told["a", "b"]["properties"]["height"]) == (1, 3)


def test_a_slanted_wall_has_its_area_as_it_lies(store):
    """A slope 5 m long and 7 m deep."""
    script = (b"register low and box 0 0 0 4000 7000 3000 half -3 0 -4 12000\n"
              b"register high and box 0 0 0 4000 7000 3000 not half -3 0 -4 12000\n")
    [feature] = json.loads(ran(["walls", "--geojson"], script)[1])["features"]
    assert feature["properties"]["area"] == 35 and sorted(feature["geometry"]["coordinates"][0][:4]) == [[0, 0, 3], [0, 7, 3], [4, 0, 0], [4, 7, 0]]


def test_a_lot_that_touches_no_other_has_no_feature(store):
    assert json.loads(ran(["walls", "--geojson", "--lot", "d"], SCRIPT)[1]) == {"type": "FeatureCollection", "features": []}


def test_an_extract_if_the_report_is_too_long(store, monkeypatch):
    """Of a lot of many: the rows are the same, and the report is that of the lot and of those that touch it."""
    row, most = script.script_of(("rp 2\n" + "".join(f"register n{at} box {at}.000 0.000 0.000 {at + 1}.000 1.000 1.000\n" for at in range(60))).encode()), report.MOST
    whole = walls.walls(row, ["n20"], PROGRAM)
    monkeypatch.setattr(report, "MOST", len(whole.run.text) - 1)
    found = walls.walls(row, ["n20"], PROGRAM)
    told = [[walls_forms.row(pair) for pair in each.pairs] for each in (whole, found)]
    assert told[0] == told[1] == [("n19", "n20", "base", "wall", "1.000000", ""), ("n20", "n21", "base", "wall", "1.000000", "")]
    assert whole.excerpt is None and set(found.excerpt.live) == {"n19", "n20", "n21"} and found.run.check == "accepted"
    assert walls_forms.said(found) == [
        "2 walls, 0 edges, 0 corners; report accepted, of an extract with 3 of 60 live lots",
        "the extract has these lots and those that touch them; that no other lot touches them is the answer of the store alone"]
    # Of all lots there is no extract.
    monkeypatch.setattr(report, "MOST", most)
    monkeypatch.setattr(report, "MOST", len(walls.walls(row, [], PROGRAM).run.text) - 1)
    found = walls.walls(row, [], PROGRAM)
    assert not found.run.is_checked and found.excerpt is None and len(found.pairs) == 59
