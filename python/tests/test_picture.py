import io
import json
import re
import shutil
from fractions import Fraction
from xml.etree import ElementTree

import pytest
from rpstore import Fault, fitting, lots, picture
from test_words import ran

SVG = "{http://www.w3.org/2000/svg}"


def shown(report):
    """What a report shows, which is not checked."""
    return lots.seen(io.BytesIO(report.encode()))


def ring(*corners, height=0):
    """The line of a report for a part with these corners at a height."""
    edges = zip(corners[-1:] + corners[:-1], corners)
    return "= ring " + " ".join(f"({p[1] - q[1]} {q[0] - p[0]} {p[0] * q[1] - p[1] * q[0]}) ({q[0]} {q[1]} {height} 1)" for p, q in edges)


def square(west, south, side=10):
    return (west, south), (west + side, south), (west + side, south + side), (west, south + side)


def section(number, label, height, *rings):
    return "\n".join([f"> {number} section {label} {height}", f"= sections {len(rings)}", *rings, ""])


def paths(text):
    """The rings of each path of a picture, in hundredths of a pixel, by its title, drawing by drawing."""
    found = []
    for group in ElementTree.fromstring(text).findall(f"{SVG}g"):
        told = {}
        for path in group.iter(f"{SVG}path"):
            rings = [list(map(int, step.split())) for step in path.get("d").strip("MZ").split("ZM")]
            told[path.find(f"{SVG}title").text] = [list(zip(each[::2], each[1::2])) for each in rings]
        found.append(told)
    return found


def words(text):
    return [each.text for each in ElementTree.fromstring(text).iter(f"{SVG}text")]


def test_parts_are_one_outline():
    text = picture.picture(shown(section(1, "lot a", 0, ring(*square(0, 0)), ring(*square(10, 0)), ring(*square(0, 10)))))
    [[rings]] = map(lambda told: list(told.values()), paths(text))
    assert len(rings) == 1 and len(rings[0]) == 6


def test_a_hole_and_a_second_piece():
    court = [((0, 0), (30, 0), (30, 10), (0, 10)), ((0, 20), (30, 20), (30, 30), (0, 30)), square(0, 10), square(20, 10)]
    text = picture.picture(shown(section(1, "lot a", 0, *(ring(*each) for each in court), ring(*square(40, 0)))))
    [told] = paths(text)
    outer, hole, other = told["a"]
    assert [len(each) for each in told["a"]] == [4, 4, 4]
    assert min(hole)[0] > min(outer)[0] and max(hole)[0] < max(outer)[0] < min(other)[0]
    assert 'fill-rule="evenodd"' in text


def test_one_frame_and_one_scale():
    text = picture.picture(shown(section(1, "lot a", 0, ring(*square(0, 0, 100))) + section(2, "lot a", 5, ring(*square(20, 30), height=5))
                                 + section(3, "lot b", 5, ring(*square(200, 0), height=5))), 800)
    low, high = paths(text)
    [large], [small], [far] = low["a"], high["a"], high["b"]
    west, unit = min(x for x, _ in large), Fraction(max(x for x, _ in large) - min(x for x, _ in large), 100)
    south = max(y for _, y in large)
    for found, corner in ((small, (20, 30)), (far, (200, 0))):
        assert abs(min(x for x, _ in found) - west - corner[0] * unit) <= 1 and abs(south - max(y for _, y in found) - corner[1] * unit) <= 1
        assert abs(max(x for x, _ in found) - min(x for x, _ in found) - 10 * unit) <= 1
    assert [word for word in words(text) if word.startswith("height")] == ["height 0", "height 5"]
    # One frame: the rectangles of both drawings are as large.
    assert len(set(re.findall(r'<rect width="(\d+)" height="(\d+)" fill="#f6f8fa"', text))) == 1


def test_each_coordinate_is_rounded_once():
    # A third and a sixth of a unit: a triangle with such corners, in a frame 1 unit wide.
    frame = picture.Frame(Fraction(0), Fraction(1), 3000, 3000, Fraction(3000))
    assert frame.place((1, 2, 3)) == (1000, 1000) and frame.place((1, 1, 6)) == (500, 2500)
    assert picture.Frame(Fraction(0), Fraction(0), 1, 1, Fraction(1, 2)).place((1, -1, 1)) == (1, 1)


@pytest.mark.parametrize("width, told", [(400, {"long-corridor"}), (650, {"1", "1: long-corridor"}), (1000, {"long-corridor"})])
def test_a_name_stands_in_its_area_or_in_the_legend(width, told):
    """A corridor along a hall: first it has no room for a word, then for a number, of which the legend tells, then for its name."""
    corridor, hall = ring((0, 0), (300, 0), (300, 4), (0, 4)), ring((0, 4), (300, 4), (300, 150), (0, 150))
    text = picture.picture(shown(section(1, "lot long-corridor", 0, corridor) + section(2, "lot hall", 0, hall)), width)
    assert set(words(text)) - {"height 0", "50", "N"} == {"hall", *told}
    # The legend has a colour for each of its lines, and where all names fit there is none.
    assert len(re.findall('<rect x=', text)) == (0 if width == 1000 else 1)


def test_names_that_are_too_many_are_counted():
    text = picture.picture(shown(many(2000)), 400)
    assert words(text)[-1].endswith(" more, for whose names a wider picture has room") and len(words(text)) < 500


def test_what_is_not_there_has_no_line():
    told = section(1, "lot a", 0, ring(*square(0, 0))) + section(2, "lot gone", 0, "= flat 1*(0 0 -1 0)") + section(3, "lot none", 0)
    text = picture.picture(shown(told))
    assert "gone" not in text and "none" not in words(text) and picture.summary(shown(told)) == "drew 1 section at 1 height; 2 have nothing at that height"


def test_neighbours_have_different_colours_and_a_lot_one():
    told = "".join(section(10 * level + place, f"lot n{place}", level, ring(*square(10 * (place % 3), 10 * (place // 3)), height=level))
                   for level in (1, 2) for place in range(9))
    found = re.findall(r'<path fill="(#\w+)" d="[^"]*"><title>(\w+)', picture.picture(shown(told)))
    assert len(found) == 18 and len(set(found)) == 9
    colour = {label: fill for fill, label in found}
    for one in range(9):
        for other in range(one):
            if abs(one % 3 - other % 3) <= 1 and abs(one // 3 - other // 3) <= 1:
                assert colour[f"n{one}"] != colour[f"n{other}"]


def test_what_has_no_end_is_left_out_where_other_things_are():
    cube = ring((-2**24, -2**24), (2**24, -2**24), (2**24, 2**24), (-2**24, 2**24))
    told = section(1, "all", 0, cube) + section(2, "lot a", 0, ring(*square(0, 0)))
    assert list(paths(picture.picture(shown(told)))[0]) == ["a"] and picture.summary(shown(told)).endswith("; 1 without an end is left out")
    assert list(paths(picture.picture(shown(section(1, "all", 0, cube))))[0]) == ["all"]


def test_nothing_to_draw():
    with pytest.raises(Fault, match="no line `section`"):
        picture.picture(shown("> 1 list\n= parcels 0\n"))


@pytest.mark.parametrize("name", ["plan", "section"])
def test_names_are_inside(name, root):
    """No edge of an area comes into the box of its name, as its size and the width of a letter tell it."""
    seen = lots.seen((root / f"examples/{name}.report").open("rb"))
    found = picture.drawn(seen)
    frame, _ = picture.frame_of(found, 2, 100000)
    levels = picture.areas_of(found, frame, picture.coloured(found))
    placed, _ = picture.named(list(levels.values()))
    assert sum(len(names.found) for names in placed) >= 2
    for names in placed:
        areas = {area.label: area for area in names.areas}
        for (label, *_), (west, north, east, south) in zip(names.found, names.taken):
            assert any(is_inside(piece, (x, y)) for piece in areas[label].pieces for x, y in [((west + east) / 2, (north + south) / 2)])
            for piece in areas[label].pieces:
                for p, q in (edge for each in piece for edge in zip(each, each[1:] + each[:1])):
                    assert not crosses(p, q, west + 1, north + 1, east - 1, south - 1)


def is_inside(rings, point):
    odd = False
    for each in rings:
        for (ax, ay), (bx, by) in zip(each, each[1:] + each[:1]):
            odd ^= (ay <= point[1] < by or by <= point[1] < ay) and point[0] < ax + (bx - ax) * (point[1] - ay) / (by - ay)
    return odd


def crosses(p, q, west, north, east, south):
    """Whether an edge comes into a box: what is left of it within each side."""
    begin, end = 0.0, 1.0
    for at, way, low, high in ((p[0], q[0] - p[0], west, east), (p[1], q[1] - p[1], north, south)):
        if not way:
            if not low < at < high:
                return False
            continue
        first, last = sorted(((low - at) / way, (high - at) / way))
        begin, end = max(begin, first), min(end, last)
    return begin < end


@pytest.mark.parametrize("rings, width, height, fits", [
    ([[(0, 0), (100, 0), (100, 20), (0, 20)]], 90, 10, True), ([[(0, 0), (100, 0), (100, 20), (0, 20)]], 101, 10, False),
    # A U: there is room in its foot, below the notch, and none beside it.
    ([[(0, 0), (100, 0), (100, 60), (90, 60), (90, 20), (10, 20), (10, 60), (0, 60)]], 80, 15, True),
    ([[(0, 0), (100, 0), (100, 60), (90, 60), (90, 20), (10, 20), (10, 60), (0, 60)]], 80, 25, False),
    # A hole in the middle: a word goes beside it, and one that is too wide for that nowhere.
    ([[(0, 0), (100, 0), (100, 30), (0, 30)], [(45, 5), (45, 25), (55, 25), (55, 5)]], 40, 10, True),
    ([[(0, 0), (100, 0), (100, 30), (0, 30)], [(45, 5), (45, 25), (55, 25), (55, 5)]], 60, 10, False),
])
def test_room_for_a_word(rings, width, height, fits):
    box = fitting.room(rings, width, height, [])
    assert bool(box) == fits
    if box:
        assert is_inside(rings, ((box[0] + box[2]) / 2, (box[1] + box[3]) / 2))
        assert not any(crosses(p, q, *box) for each in rings for p, q in zip(each, each[1:] + each[:1]))
        assert fitting.room(rings, width, height, [box]) is None or not overlap(fitting.room(rings, width, height, [box]), box)


def overlap(one, other):
    return one[0] < other[2] and other[0] < one[2] and one[1] < other[3] and other[1] < one[3]


def many(count):
    """A report of sections of so many lots, wall to wall, each of two parts."""
    told = []
    for number in range(count):
        west, south = 8000 * (number % 70), 9000 * (number // 70)
        told.append(section(number + 1, f"lot n{number % 70}_{number // 70}", 0, ring(*square(west, south, 4000)),
                            ring((west + 4000, south), (west + 8000, south), (west + 8000, south + 9000), (west + 4000, south + 9000))))
    return "".join(told)


def test_5000_lots_make_a_picture_that_opens(browser, tmp_path):
    told = shown(many(5000))
    path = tmp_path / "many.svg"
    path.write_text(picture.picture(told), encoding="utf-8")
    assert path.stat().st_size < 1_500_000
    browser.get(f"file://{path}")
    size = browser.execute_script("const box = document.documentElement.getBoundingClientRect(); return [box.width, box.height]")
    assert size[0] == 1000 and 500 < size[1] < 3000
    # What is under a point of the page is the lot that is there.
    last = browser.execute_script("""const box = [...document.querySelectorAll('path title')].pop().parentNode.getBoundingClientRect();
        return document.elementFromPoint(box.left + box.width / 4, box.top + box.height * 3 / 4).querySelector('title').textContent""")
    assert last == "n29_71" and browser.execute_script("return document.querySelectorAll('path title').length") == 5000


def test_a_converter_draws_it(tmp_path):
    import subprocess
    if not shutil.which("rsvg-convert"):
        pytest.skip("librsvg2-bin is not there")
    path = tmp_path / "many.svg"
    path.write_text(picture.picture(shown(many(700)), 3000), encoding="utf-8")
    subprocess.run(["rsvg-convert", path, "-o", tmp_path / "many.png"], check=True)
    assert (tmp_path / "many.png").read_bytes()[16:20] == (3000).to_bytes(4, "big")


# A report, what is said of it, and where.
NONE = [("> 1 section all 0\n= sections 1\n= circle (1 0 0) (0 0 0 1)\n", "line 3 of the report: a line that shows a slice is due here"),
        ("> 1 section all 0\n= sections 1\n", "line 3 of the report: it ends in an answer; a line that shows a slice is due here"),
        (section(1, "all", 0, ring(*square(0, 0)[::-1])), "line 3 of the report: its ends do not go once round a convex area"),
        ("a script\n", "line 1 of the report: an echo")]


@pytest.mark.parametrize("report, said", NONE)
def test_what_is_no_report(report, said):
    with pytest.raises(Fault, match=re.escape(said)):
        shown(report)


FLOORS = """rp 2
register a box 0.000 0.000 0.000 4.000 5.000 3.000
register b box 4.000 0.000 0.000 9.000 5.000 3.000
register c box 0.000 0.000 3.000 9.000 5.000 6.000
let way = box 0.000 4.000 0.000 9.000 5.000 2.000
"""


def test_heights_of_a_script_without_sections(store):
    """The drawing of a height is that of a line `section` for each lot that has something there."""
    status, drawn, said = ran(["picture", "--at", "1.5", "--at", "4"], FLOORS.encode())
    cuts = "".join(f"section lot {lot} {height}\n" for height, there in (("1.500", "ab"), ("4.000", "c")) for lot in there)
    assert status == 0 and "3 have nothing" in said and ran(["picture"], (FLOORS + cuts).encode())[1] == drawn


@pytest.mark.parametrize("script, more, wanted", [
    (FLOORS, [], [("a", 20, 1.5), ("b", 25, 1.5)]), (FLOORS, ["--names"], [("a", 20, 1.5), ("b", 25, 1.5), ("way", 9, 1.5)]),
    (FLOORS, ["--asof", "1"], [("a", 20, 1.5)]), ("register a box 0 0 0 4000 5000 3000\n", [], [("a", 20, 1.5)])])
def test_areas_of_a_height(store, script, more, wanted):
    found = json.loads(ran(["sections", "--at", "1.5", *more], script.encode())[1])["features"]
    assert [tuple(each["properties"][name] for name in ("id", "area", "height")) for each in found] == wanted


def test_a_report_has_no_other_heights(store):
    assert ran(["picture", "--at", "1"], store(FLOORS))[::2] == (
        2, "rpstore-gis: --at needs a script, and this is a report: name the script that was run. Nothing was written.\n")
