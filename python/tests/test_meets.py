"""Which lots a region meets: the same lots as by a line `rcc` for each, and volumes by other ways."""
import csv
import io
import json
import random
import re
from fractions import Fraction

import buildings
import pytest
import second
from conftest import PROGRAM
from rpstore import Fault, extract, lots, meets, meets_forms, report, script
from rpstore import store as program
from test_words import ran

LOTS = """\
register west box 0.000 0.000 0.000 5.000 8.000 3.000
register east box 5.000 0.000 0.000 10.000 8.000 3.000
register above box 0.000 0.000 3.000 10.000 8.000 6.000
register far box 50.000 0.000 0.000 60.000 8.000 3.000
layer rights
register way box 4.000 2.000 0.000 6.000 3.000 2.000
retire far
"""
# The grid and the origin as older scripts name them.
FLATS = f"""rp 2
# Local origin: E 412000.000, N 5765000.000. Metres from there.
# Grid: EPSG:25832.
{LOTS}"""
TUNNEL = "box 4.000 2.000 1.000 8.000 4.000 3.000"


@pytest.fixture
def asked(store):
    def of(text, region, **more):
        return meets.meets(script.script_of(text.encode()), region, PROGRAM, lots.Place(), **more)

    return of


def relations_of(store, text, region):
    """How every live lot stands to a region, as docs/language.md asks it: a line for each."""
    told = list(report.read(io.BytesIO(store(text + "list\n", "run", "brief"))))[-1].verdict
    live = [lot.id for lot in told if lot.ended is None]
    lines = [f"let asked-of-all = {region}"] + [f"rcc lot {lot} name asked-of-all" for lot in live]
    answers = list(report.read(io.BytesIO(store(text + "\n".join([*lines, ""]), "run", "brief"))))[-len(live):]
    return {lot: answer.verdict for lot, answer in zip(live, answers)}


def test_lots_and_volumes_by_hand(asked):
    found = asked(FLATS, TUNNEL, touch=True)
    told = {each.lot.id: (each.relation, each.common and each.common.volume / 10**9) for each in found.meetings}
    assert told == {"west": ("PO", 4), "east": ("PO", 12), "above": ("EC", None), "way": ("PO", 2)}
    assert found.run.check == "accepted" and not found.limited and not found.unshown
    # Of 16 cubic metres all are in lots of the layer base, and 14 are in no right.
    assert meets_forms.in_no_lot(found) == {"base": 0, "rights": 14 * 10**9}


def test_the_report_shows_that_no_other_lot_is_met(asked, store):
    found = asked(FLATS, TUNNEL)
    told = found.run.text.decode()
    assert told.startswith(store(FLATS).decode()) and store(told, "check") == b"accepted\n"
    for layer, lot in (("base", "west"), ("base", "east"), ("rights", "way")):
        assert re.search(rf"\n> [0-9]+ retire {lot}\n= ok\n", told) and f" layer {layer}\n= ok\n" in told
    assert len(re.findall(r"> [0-9]+ register probe\S* name region\n(?:  .*\n)*= ok\n", told)) == 2


@pytest.mark.parametrize("forgotten", ["west", "east", "way"])
def test_a_lot_that_is_forgotten_has_the_region_refused(asked, store, forgotten):
    told = asked(FLATS, TUNNEL).run.text.decode()
    lines = "".join(f"{line}\n" for line in re.findall(r"^> [1-9][0-9]* (.*)$", told, re.M) if line != f"retire {forgotten}")
    assert f"= refused overlaps {forgotten}" in store("rp 2\n" + lines, "run", "brief").decode()


def test_one_layer(asked):
    assert [each.lot.id for each in asked(FLATS, TUNNEL, only=["rights"]).meetings] == ["way"]
    with pytest.raises(Fault, match="no live lot is in the layer cellars; there are base, rights"):
        asked(FLATS, TUNNEL, only=["cellars"])


def test_a_region_by_a_lot_a_name_and_without_an_end(asked):
    assert {each.lot.id: each.relation for each in asked(FLATS, "lot way").meetings} == {"west": "PO", "east": "PO", "way": "EQ"}
    found = asked(FLATS + "let water = half 0 0 -1 1000\n", "name water")
    assert {each.lot.id: each.common.volume / 10**9 for each in found.meetings} == {"west": 40, "east": 40, "way": 2}
    assert meets_forms.in_no_lot(found) == {}
    assert asked(FLATS, "box 70.000 0.000 0.000 71.000 1.000 1.000").meetings == []


def test_lots_without_an_end_have_no_volume(asked):
    found = asked("register low half 0 0 -1 0\nregister hut box 0 0 1 5 5 4\n", "half 0 0 -1 2")
    assert [meets_forms.row(each) for each in found.meetings] == [("low", "base", "NTPP", "", "", "", "", ""),
                                                      ("hut", "base", "PO", "0.001", "0.002", "0.000025", "0.000000025", "0.000000075")]
    assert [each["geometry"] is None for each in json.loads(meets_forms.FORMS["lots"](found))["features"]] == [True, False]


@pytest.mark.parametrize("region, said", [
    ("box 0 0 0 1 1 1", "the region is no expression: word 2, \"0\", stands where x1 of box is due"), ("lot far", "names far, which is no live lot"),
    ("name water", "names water, which is no live lot and no name"), ("tunnel", "word 1, \"tunnel\""), ("all all", "the end of the line"), ("", "an expression"),
    ("all\nretire west", "no expression"), ("box 8.000 0.000 0.000 1.000 1.000 1.000", "the region has no point, so it meets no lot"),
    ("box 0.000 0.000 3.000 1.000 1.000 1.000", "the upper height of its box, 1.000, is not above the lower one, 3.000"),
    (f"prism 0.000 1.000 256{' -8388.608' * 512}" + " or" * 3, "the end of the line"),
    (" ".join(["or"] * 100 + [f"prism 0.000 1.000 256{' -8388.608' * 512}"] * 101), "and a line of version 2 262,144")])
def test_a_region_that_is_refused(asked, region, said):
    with pytest.raises(Fault, match=re.escape(said)) as fault:
        asked(FLATS, region)
    assert fault.value.status == 2


def test_names_that_the_script_has(asked):
    more = "let region = all\nlet region-2 = all\nregister probe box 70.000 0.000 0.000 71.000 1.000 1.000\n"
    found = asked(FLATS + more, TUNNEL)
    assert {each.lot.id for each in found.meetings} == {"west", "east", "way"} and " let region-3 = " in found.run.text.decode()
    assert not found.unshown


def test_a_script_of_version_1_with_a_refused_line_and_no_end_of_its_last_line(asked):
    text = "register a box 0 0 0 9 9 9\nregister b box 8 0 0 12 9 9\nretire b"
    assert [each.lot.id for each in asked(text, "box 8 8 8 10 10 10").meetings] == ["a"]
    assert asked("# nothing but a note\n", "all").meetings == [] == asked("", "all").meetings == asked("rp 2", "all").meetings


def test_a_limit_is_said(asked):
    """Two combs of 200 teeth each have 40,000 parts in common, which no region may have."""
    combs = {axis: "or " * 199 + " ".join(f"box {' '.join(str(number) for number in (0, 2 * tooth, 0, 900, 2 * tooth + 1, 1))}" if axis == "y" else
                                          f"box {' '.join(str(number) for number in (2 * tooth, 0, 0, 2 * tooth + 1, 900, 1))}" for tooth in range(200))
             for axis in "xy"}
    found = asked(f"register comb {combs['x']}\nregister far box 5000 0 0 5001 1 1\n", combs["y"])
    assert [(each.lot.id, each.relation, each.common) for each in found.meetings] == [("comb", "", None)] and found.limited == ["comb"]
    assert "a limit of the store is met for comb: " in meets_forms.said(found)[-1] and found.run.check == "accepted"


FULL = "".join(f"register l{row} {'or ' * 511}{' '.join(f'box {2 * at} {2 * row} 0 {2 * at + 1} {2 * row + 1} 1' for at in range(512))}\n" for row in range(128))


def test_a_full_register_has_an_extract_probed(asked):
    """128 lots of 512 boxes are all parts that a register may keep. Three of them have a point of the box, and no other touches it."""
    found = asked(FULL, "box 0 0 0 5 5 5")
    assert [each.lot.id for each in found.meetings] == ["l0", "l1", "l2"] and found.unshown == found.limited == [] and not found.is_partial
    assert set(found.excerpt.live) == {"l0", "l1", "l2"} and [lot.id for lot in found.unseen] == [f"l{row}" for row in range(3, 128)]
    assert meets_forms.said(found) == [
        "3 lots share a point with the region; report accepted, of an extract with 3 of 128 live lots",
        f"of the region {(125 - 27) / 10**9:.3f} m3 are in no lot of the layer base",
        "the extract has the lots near the region; that the region meets none of the other 125 is the answer of the store alone"]


def test_lots_that_are_not_shown_are_named(asked, monkeypatch):
    """A full register of which no extract helps."""
    monkeypatch.setattr(extract, "excerpt", lambda *_: None)
    found = asked(FULL, "box 0 0 0 5 5 5")
    assert [each.lot.id for each in found.meetings] == ["l0", "l1", "l2"] and found.unshown == ["base"] and found.is_partial
    assert ("the report does not show that the region meets none of the 125 other lots of the layer base, l3, l4, l5, l6, l7, l8, l9, l10, l11 and 116 more: "
            "registering the region there meets a limit") in meets_forms.said(found)[-1]
    assert meets_forms.in_no_lot(found) == {}


# ---- reports that are too long to be checked

# Lots in a row, a name that one of them rests on, and a lot that ended where the last ones are.
ROW = "rp 2\nregister old box 50.000 0.000 0.000 60.000 1.000 1.000\nlet shape = lot old\nretire old\nlet cut-off = half 1 0 0 -20300\n" + "".join(
    f"register n{at} box {at}.000 0.000 0.000 {at + 1}.000 1.000 1.000\n" for at in range(60)) + (
    "cut n20 name cut-off n20-e n20-w\nlayer rights\nregister way and name shape box 51.000 0.000 0.000 53.500 1.000 0.500\n")
BAR = "box 20.200 0.500 0.200 22.000 2.000 0.700"


@pytest.fixture
def too_long(asked, monkeypatch):
    """Asks twice, the second time with reports of one byte less that `check` may read than the first one has."""
    most = report.MOST

    def of(text, region, **more):
        monkeypatch.setattr(report, "MOST", most)
        whole = asked(text, region, **more)
        assert whole.excerpt is None and whole.run.is_checked
        monkeypatch.setattr(report, "MOST", len(whole.run.text) - 1)
        return whole, asked(text, region, **more)

    return of


def rows(found):
    return [meets_forms.row(each) for each in found.meetings]


def test_an_extract_is_asked_if_the_report_is_too_long(too_long, store):
    whole, found = too_long(ROW, BAR, touch=True)
    assert rows(found) == rows(whole) and [each.lot.id for each in found.meetings] == ["n21", "n22", "n20-e", "n20-w"]
    assert [each.relation for each in found.meetings] == ["PO", "EC", "PO", "PO"]
    assert set(found.excerpt.live) == {"n20-e", "n20-w", "n21", "n22"} and found.excerpt.of == 62 and len(found.unseen) == 58
    assert found.run.check == "accepted" and store(found.run.text.decode(), "check") == b"accepted\n" and 3 * len(found.run.text) < 2 * len(whole.run.text)
    assert meets_forms.in_no_lot(found) == meets_forms.in_no_lot(whole)
    said = meets_forms.said(found)
    assert said[0] == "3 lots share a point with the region, 1 more only touches it; report accepted, of an extract with 4 of 62 live lots"
    assert said[-1] == "the extract has the lots near the region; that the region meets none of the other 58 is the answer of the store alone"


def test_the_lines_of_an_extract_have_their_numbers(too_long):
    whole, found = too_long(ROW, BAR)
    lines = [set(re.findall(rb"^> ([0-9]+ (?:register|cut|let|retire|show|rcc) .*)$", each.run.text, re.M)) for each in (whole, found)]
    assert lines[1] < lines[0] and any(line.endswith(b"cut n20 name cut-off n20-e n20-w") for line in lines[1])


def test_a_lot_that_ended_is_not_in_the_way_of_an_extract(too_long):
    """The right rests on the lot that ended, which is live in the extract unless its end is in it."""
    whole, found = too_long(ROW, "box 52.000 0.200 0.200 57.000 0.400 0.400")
    assert rows(found) == rows(whole) and "way" in {each.lot.id for each in found.meetings} and not found.unshown


def test_a_region_by_a_name_and_a_lot_of_the_script(too_long):
    for region in ("lot n30", "minus box 20.000 0.000 0.000 22.000 1.000 1.000 name cut-off"):
        whole, found = too_long(ROW, region)
        assert rows(found) == rows(whole) and found.meetings and found.excerpt


def test_a_region_that_is_everywhere_and_meets_few_lots(too_long):
    """The box round a diagonal of 60 m meets all lots, and the lots that it meets make the extract."""
    whole, found = too_long(ROW, "or box 20.200 0.500 0.200 20.900 0.700 0.300 or box -5.000 5.000 0.000 -4.000 6.000 0.500 box 70.000 5.000 0.000 71.000 6.000 0.500")
    assert rows(found) == rows(whole) and set(found.excerpt.live) == {"n20-e", "n20-w"}


def test_a_report_without_a_short_extract_is_not_checked(too_long):
    """A region that all lots are in."""
    whole, found = too_long(ROW, "box -1.000 -1.000 -1.000 70.000 2.000 2.000")
    assert rows(found) == rows(whole) and len(found.meetings) == 62 and found.excerpt is None
    assert not found.run.is_checked and program.is_brief(found.run.text) and found.run.size == len(whole.run.text) and not found.unseen
    assert meets_forms.said(found)[0] == "62 lots share a point with the region; report not checked"
    assert f"not checked: the report has {found.run.size:,} bytes, and check reads {found.run.size - 1:,}: these are the answers of the store alone" in meets_forms.said(found)


def convex(rng):
    """A convex region of version 1 as a text: a box with two corners cut off, by half-spaces that are slanted."""
    ends = [sorted(rng.sample(range(-40, 41), 2)) for _ in range(3)]
    halves = [f"half {' '.join(str(rng.randint(-5, 5)) for _ in range(2))} {rng.choice([-3, -1, 2])} {rng.randint(0, 90)}" for _ in range(2)]
    return f"and and box {' '.join(str(end[0]) for end in ends)} {' '.join(str(end[1]) for end in ends)} {' '.join(halves)}"


@pytest.mark.parametrize("seed", range(12))
def test_drawn_lots_and_regions(asked, store, seed):
    rng = random.Random(seed)
    text = "".join(f"{'layer rights' if number == 15 else ''}\nregister n{number} {convex(rng)}\n" for number in range(30))
    text += "cut n0 half 1 0 0 0 n0-east n0-west\nretire n1\n"
    region = f"or {convex(rng)} {convex(rng)}"
    relations = relations_of(store, text, region)
    if "emptyregion" in str(relations):
        pytest.skip("the region has no point")
    found = asked(text, region, touch=True)
    assert {each.lot.id: each.relation for each in found.meetings} == {lot: said for lot, said in relations.items() if said != "DC"}
    # The volumes by inclusion and exclusion.
    parts = {each.lot.id: [] for each in found.meetings}
    for answer in report.read(io.BytesIO(found.run.text)):
        if answer.command and answer.command.word == "show" and answer.text.startswith("show and lot "):
            parts[answer.text.split(" ")[3]] = [list(part) for part in answer.verdict]
    for each in found.meetings:
        assert (each.common.volume if each.common else Fraction(0)) == second.of_union(parts[each.lot.id], second.volume)


def test_a_town_against_shapely(asked):
    """Prisms in a grid: what a leaning quarter has of a bar is its area in plan times the height."""
    geometry = pytest.importorskip("shapely.geometry", reason="python3-shapely is not there")
    text = "\n".join(buildings.town(2, 6)) + "\n"
    bar = geometry.Polygon([(-5, 4), (80, 9), (80, 13), (-5, 8)])
    found = asked(text, "prism 4.000 10.500 4 -5.000 4.000 80.000 9.000 80.000 13.000 -5.000 8.000")
    wanted = {}
    for line in text.splitlines()[1:]:
        words = line.split(" ")
        corners = [float(word) for word in words[6:]]
        area = geometry.Polygon(list(zip(corners[::2], corners[1::2]))).intersection(bar).area
        high = min(float(words[4]), 10.5) - max(float(words[3]), 4)
        if area > 1e-9 and high > 0:
            wanted[words[1]] = area * high
    told = {each.lot.id: float(each.common.volume) / 10**9 for each in found.meetings}
    assert told.keys() == wanted.keys() and all(abs(told[lot] - wanted[lot]) < 1e-6 for lot in wanted) and len(told) > 20


@pytest.fixture
def flats(store, tmp_path):
    path = tmp_path / "flats.rp"
    path.write_text(FLATS)
    return str(path)


def test_the_table(flats):
    status, out, said = ran(["meets", flats, TUNNEL, "--touch"])
    rows = list(csv.DictReader(io.StringIO(out.decode())))
    assert status == 0 and [(row["lot"], row["relation"], row["volume_m3"], row["lot_volume_m3"]) for row in rows] == [
        ("west", "PO", "4.000000000", "120.000000000"), ("east", "PO", "12.000000000", "120.000000000"), ("above", "EC", "0.000000000", ""),
        ("way", "PO", "2.000000000", "4.000000000")]
    assert said == ("rpstore-gis: 3 lots share a point with the region, 1 more only touches it; report accepted\n"
                    "rpstore-gis: of the region 14.000 m3 are in no lot of the layer rights\n")


def test_the_other_forms(flats, store):
    features = json.loads(ran(["meets", flats, TUNNEL, "--as", "faces"])[1])
    assert features["crs"]["properties"]["name"].endswith(":25832") and features["features"][0]["geometry"]["coordinates"][0][0][0][0] > 412000
    assert features["features"][0]["properties"] == {
        "id": "west", "layer": "base", "relation": "PO", "born": 3, "base": 1, "height": 3, "area": 2, "volume": 4, "lot_volume": 120}
    model = json.loads(ran(["meets", flats, TUNNEL, "--as", "city"])[1])
    assert {name: each["attributes"].get("volume") for name, each in model["CityObjects"].items()} == {
        "layer base": None, "west": 4, "east": 12, "layer rights": None, "way": 2}
    assert store(ran(["meets", flats, TUNNEL, "--as", "report"])[1].decode(), "check") == b"accepted\n"
    assert b"<canvas" in ran(["meets", flats, TUNNEL, "--as", "view"])[1]


def test_words_that_do_not_fit(flats, store):
    assert [line.split(",")[0] for line in ran(["meets", flats, "all", "--asof", "4"])[1].decode().splitlines()] == ["lot", "west", "east"]
    assert ran(["meets", flats, "all", "--asof", "10"])[::2] == (
        2, "rpstore-gis: the script has 9 lines, and no line 10: give --asof a number up to 9. Nothing was written.\n")
    assert ran(["meets", "-", "all"], store(FLATS))[::2] == (
        2, "rpstore-gis: meets needs a script, and this is a report: name the script that was run. Nothing was written.\n")


def test_rights_are_lots_of_other_layers(store):
    flats = script.script_of(FLATS.encode())
    told = {}
    for lot in ("west", "east", "above", "way"):
        found = meets.rights(flats, lot, PROGRAM, lots.Place())
        told[lot] = {each.lot.id: (each.relation, each.common.volume / 10**9) for each in found.meetings}
        assert found.run.check == "accepted"
    assert told == {"west": {"way": ("PO", 2)}, "east": {"way": ("PO", 2)}, "above": {}, "way": {"west": ("PO", 2), "east": ("PO", 2)}}
    with pytest.raises(Fault, match="no live lot"):
        meets.rights(flats, "far", PROGRAM, lots.Place())


def test_rights_in_words(store, tmp_path):
    path = tmp_path / "flats.rp"
    path.write_text(FLATS)
    status, told, said = ran(["rights", str(path), "west"])
    assert status == 0 and said == "rpstore-gis: 1 lot lies on west; report accepted\n"
    assert list(csv.reader(io.StringIO(told.decode())))[1:] == [["way", "rights", "PO", "0.000", "2.000", "1.000000", "2.000000000", "4.000000000"]]
