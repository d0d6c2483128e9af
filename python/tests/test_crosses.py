"""Which lots a line crosses: by hand, against shapely for a town, and against `at` for drawn lots."""
import csv
import io
import json
import math
import random
import re
from fractions import Fraction

import buildings
import pytest
from conftest import PROGRAM
from rpstore import crosses, crosses_forms, report, script
from rpstore.place import Place
from test_meets import LOTS, convex
from test_words import ran

FLATS = f"""rp 2
# Grid: EPSG:25832. Local origin: E 412000, N 5765000.
{LOTS}"""


@pytest.fixture
def asked(store):
    def of(text, *numbers, **more):
        return crosses.crosses(script.script_of(text.encode()), crosses.line_of(numbers), PROGRAM, Place(), **more)

    return of


def told(found):
    """What each lot has of a line: the points at both ends as fractions of units, and the length."""
    line = found.line
    return [(each.lot.id, *(tuple(Fraction(number, point[3]) for number in point[:3]) for point in (line.point(each.begin), line.point(each.end))),
             float(line.length(each.begin, each.end))) for each in found.crossings]


def test_a_line_through_walls_by_hand(asked):
    found = asked(FLATS, -2000, 2000, 1000, 12000, 2000, 1000)
    assert told(found) == [("west", (0, 2000, 1000), (5000, 2000, 1000), 5000), ("way", (4000, 2000, 1000), (6000, 2000, 1000), 2000),
                           ("east", (5000, 2000, 1000), (10000, 2000, 1000), 5000)]
    assert found.run.check == "accepted" and not found.unshown and not found.unseen
    assert {layer: crosses_forms.length(found, stretches) for layer, stretches in found.free.items()} == {"base": 4000, "rights": 12000}


def test_the_way_back_has_the_same_lots(asked):
    assert [lot for lot, *_ in told(asked(FLATS, 12000, 2000, 1000, -2000, 2000, 1000))] == ["east", "way", "west"]


def test_corners_of_a_line(asked):
    """Up in the west, and on to the east one floor higher: 2 m and 1 m, and in the upper flat 1 m and 6 m."""
    found = asked(FLATS, 2000, 1000, 1000, 4000, 1000, 1000, 4000, 1000, 4000, 10000, 1000, 4000, only=["base"])
    assert told(found) == [("west", (2000, 1000, 1000), (4000, 1000, 3000), 4000), ("above", (4000, 1000, 3000), (10000, 1000, 4000), 7000)]


def test_a_line_in_a_wall_is_in_one_lot(asked):
    """The wall x = 5 is of the lot to the right, the floor z = 3 of the lot above, by the rule of boundaries."""
    assert [lot for lot, *_ in told(asked(FLATS, 5000, 1000, 1000, 5000, 7000, 1000, only=["base"]))] == ["east"]
    assert [lot for lot, *_ in told(asked(FLATS, 1000, 1000, 3000, 9000, 7000, 3000, only=["base"]))] == ["above"]


def test_a_line_through_a_corner_has_a_single_point_of_a_lot(asked):
    """Of four boxes round (5, 5) the corner belongs to the one up right: down from the upper left to the lower right only that is met."""
    four = "".join(f"register {name} box {x} {y} 0 {x + 5} {y + 5} 9\n" for name, x, y in (("sw", 0, 0), ("se", 5, 0), ("nw", 0, 5), ("ne", 5, 5)))
    found = asked(four, 1, 9, 1, 9, 1, 1)
    assert [(lot, length) for lot, _, _, length in told(found)] == [("nw", pytest.approx(4 * 2**0.5)), ("ne", 0), ("se", pytest.approx(4 * 2**0.5))]
    assert told(found)[1][1:3] == ((5, 5, 1), (5, 5, 1))
    assert [lot for lot, *_ in told(asked(four, 1, 1, 1, 9, 9, 1))] == ["sw", "ne"]


def test_points_that_are_no_whole_units(asked):
    """The line x = 3 y meets the slope 2 x + 5 y = 45 at y = 45/11."""
    found = asked("register low and box 0 0 0 40 40 9 half -2 -5 0 45\nregister high and box 0 0 0 40 40 9 half 2 5 0 -45\n", 0, 0, 1, 30, 10, 1)
    [low, high] = told(found)
    assert low[:3] == ("low", (0, 0, 1), (Fraction(135, 11), Fraction(45, 11), 1)) and high[:3] == ("high", (Fraction(135, 11), Fraction(45, 11), 1), (30, 10, 1))


def test_a_lot_that_is_left_and_entered_again(asked):
    comb = "or or box 0 0 0 10 2 9 box 0 2 0 2 8 9 box 8 2 0 10 8 9"
    found = asked(f"register comb {comb}\nregister inner box 2 2 0 8 8 9\n", -1, 5, 1, 11, 5, 1)
    assert [(lot, begin[0], end[0]) for lot, begin, end, _ in told(found)] == [("comb", 0, 2), ("inner", 2, 8), ("comb", 8, 10)]


def test_parts_of_one_lot_are_crossed_in_one_go(asked):
    found = asked("register row or or box 0 0 0 2 2 2 box 2 0 0 4 2 2 box 3 0 0 9 2 2\n", -1, 1, 1, 11, 1, 1)
    assert [(lot, begin[0], end[0]) for lot, begin, end, _ in told(found)] == [("row", 0, 9)]


def test_a_lot_called_nobody_and_names_that_the_script_has(asked):
    text = "let region = all\nregister probe box 50 0 0 51 1 1\nregister nobody box 0 0 0 4 4 4\n"
    found = asked(text, -4, 1, 1, 8, 1, 1)
    assert [lot for lot, *_ in told(found)] == ["nobody"] and crosses_forms.length(found, found.free["base"]) == 8 and not found.unshown


def test_no_lot(asked):
    assert asked(FLATS, 0, 0, 90000, 1000, 0, 90000).crossings == [] == asked("", 0, 0, 0, 1, 0, 0).crossings


def test_the_report_shows_that_no_other_lot_is_near(asked, store):
    told_ = asked(FLATS, -2000, 2000, 1000, 12000, 2000, 1000).run.text.decode()
    assert store(told_, "check") == b"accepted\n" and len(re.findall(r"> [0-9]+ register probe\S* name region\n(?:  .*\n)*= ok\n", told_)) == 2
    lines = "".join(f"{line}\n" for line in re.findall(r"^> [1-9][0-9]* (.*)$", told_, re.M) if line != "retire east")
    assert "= refused overlaps east" in store("rp 2\n" + lines, "run", "brief").decode()


def test_an_extract_if_the_report_is_too_long(asked, monkeypatch):
    text = "rp 2\n" + "".join(f"register n{at} box {at}.000 0.000 0.000 {at + 1}.000 1.000 1.000\n" for at in range(60))
    whole = asked(text, 20500, 500, 500, 22500, 500, 500)
    monkeypatch.setattr(report, "MOST", len(whole.run.text) - 1)
    found = asked(text, 20500, 500, 500, 22500, 500, 500)
    assert whole.excerpt is None and found.run.check == "accepted" and 3 * len(found.run.text) < len(whole.run.text)
    assert told(found) == told(whole) == [("n20", (20500, 500, 500), (21000, 500, 500), 500), ("n21", (21000, 500, 500), (22000, 500, 500), 1000),
                                          ("n22", (22000, 500, 500), (22500, 500, 500), 500)]
    assert (found.excerpt.of, len(found.unseen)) == (60, 60 - len(found.excerpt.live)) and {"n20", "n21", "n22"} <= set(found.excerpt.live)
    assert crosses_forms.said(found)[0] == f"the line of 2.000 m crosses 3 lots; report accepted, of an extract with {len(found.excerpt.live)} of 60 live lots"
    assert f"none of the other {len(found.unseen)} is near it" in crosses_forms.said(found)[-1]


@pytest.mark.parametrize("seed", range(8))
def test_drawn_lots(asked, store, seed):
    """Of drawn points of a line the store says who has them."""
    rng = random.Random(seed)
    text = "".join(f"{'layer rights' if number == 15 else ''}\nregister n{number} {convex(rng)}\n" for number in range(30))
    text += "cut n0 half 1 0 0 0 n0-east n0-west\nretire n1\n"
    corners = [[rng.randint(-45, 45) for _ in range(3)] for _ in range(rng.randint(2, 4))]
    found = asked(text, *(number for corner in corners for number in corner))
    line, places = found.line, [Fraction(rng.randint(0, 999 * (len(corners) - 1)), 999) for _ in range(40)]
    places += [end for each in found.crossings for end in (each.begin, each.end)]
    for layer in ("base", "rights"):
        ask = [f"at {' '.join(map(str, line.point(place)))}" for place in places]
        answers = list(report.read(io.BytesIO(store(text + "\n".join([f"layer {layer}", *ask, ""]), "run", "brief"))))[-len(ask):]
        for place, answer in zip(places, answers):
            owners = {each.lot.id for each in found.crossings if each.lot.layer == layer and each.begin < place < each.end}
            ends = {each.lot.id for each in found.crossings if each.lot.layer == layer and place in (each.begin, each.end)}
            assert owners == {answer.verdict} if owners else answer.verdict is None or answer.verdict in ends


def test_a_town_against_shapely(asked):
    """Prisms in a grid, and a line at one height: what each has of it is what its plan has."""
    geometry = pytest.importorskip("shapely.geometry", reason="python3-shapely is not there")
    text = "\n".join(buildings.town(2, 3)) + "\n"
    bent = [(-5, 4), (40, 13.5), (80, 9)]
    found = asked(text, *(round(number * 1000) for x, y in bent for number in (x, y, 4.5)))
    wanted = {}
    for words in (line.split(" ") for line in text.splitlines()[1:]):
        corners = [float(word) for word in words[6:]]
        length = geometry.Polygon(list(zip(corners[::2], corners[1::2]))).intersection(geometry.LineString(bent)).length
        if length > 1e-9 and float(words[3]) <= 4.5 < float(words[4]):
            wanted[words[1]] = length
    lengths = {}
    for lot, _, _, length in told(found):
        lengths[lot] = lengths.get(lot, 0) + length / 1000
    assert {lot: length for lot, length in lengths.items() if length} == pytest.approx(wanted, abs=1e-6) and len(wanted) > 10


@pytest.fixture
def flats(store, tmp_path):
    path = tmp_path / "flats.rp"
    path.write_text(FLATS)
    return str(path)


def test_the_table(flats):
    status, out, said = ran(["crosses", flats, "-2", "2", "1", "12", "2", "1", "--layer", "base"])
    assert list(csv.reader(io.StringIO(out.decode()))) == [
        list(crosses_forms.HEAD), ["west", "base", "2.000000", "5.000000", "0.000000", "2.000000", "1.000000", "5.000000", "2.000000", "1.000000"],
        ["east", "base", "7.000000", "5.000000", "5.000000", "2.000000", "1.000000", "10.000000", "2.000000", "1.000000"]]
    assert (status, said) == (0, "rpstore-gis: the line of 14.000 m crosses 2 lots; report accepted\n"
                                 "rpstore-gis: of the line 4.000 m are in no lot of the layer base\n")
    assert ran(["crosses", flats, "412004", "5765002", "1", "412006", "5765002", "1", "--map", "--layer", "rights"])[1].decode().splitlines()[1] == (
        "way,rights,0.000000,2.000000,4.000000,2.000000,1.000000,6.000000,2.000000,1.000000")


def test_features(flats, store):
    found = json.loads(ran(["crosses", flats, "-2", "2", "1", "12", "2", "1", "--as", "lines"])[1])
    assert found["crs"]["properties"]["name"].endswith(":25832") and [each["properties"]["id"] for each in found["features"]] == ["west", "way", "east"]
    assert found["features"][1] == {"type": "Feature", "properties": {"id": "way", "layer": "rights", "born": 7, "along": 6, "length": 2},
                                    "geometry": {"type": "LineString", "coordinates": [[412004, 5765002, 1], [412006, 5765002, 1]]}}
    assert store(ran(["crosses", flats, "-2", "2", "1", "12", "2", "1", "--as", "report"])[1].decode(), "check") == b"accepted\n"


@pytest.mark.parametrize("words, said", [
    (["0", "0", "0"], "and these are 3 numbers"), (["0", "0", "0", "0", "0", "0"], "that follow each other are one"),
    (["412000", "5765000", "0", "412001", "5765000", "0"], "412000.000 is out of bounds"), (["0", "0", "0", "1", "0", "0", "--layer", "cellars"], "no live lot is in the layer")])
def test_lines_that_are_refused(words, said, flats):
    status, out, told_ = ran(["crosses", flats, *words])
    assert (status, out) == (2, b"") and said in told_


def test_a_length_is_exact_until_it_is_printed(asked):
    """A third of the diagonal of a cube of 3 m."""
    found = asked("register a box 1000 1000 1000 2000 2000 2000\n", 0, 0, 0, 3000, 3000, 3000)
    [each] = found.crossings
    assert (each.begin, each.end) == (Fraction(1, 3), Fraction(2, 3)) and float(found.line.length(each.begin, each.end)) == pytest.approx(1000 * math.sqrt(3), abs=1e-12)
