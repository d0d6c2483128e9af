"""Refused lines as features: what is in the way, by hand and by shapely."""
import json

import pytest
from conftest import PROGRAM
from rpstore import conflicts, lots, script
from test_words import ran

TEXT = """rp 2
# Local origin: E 412000.000, N 5765000.000. Metres from there.
# Grid: EPSG:25832.
register west prism 0.000 3.000 4 0.000 0.000 5.000 0.000 6.000 8.000 0.000 8.000
register east prism 0.000 3.000 4 4.900 0.000 10.000 0.000 10.000 8.000 6.000 8.000
Register shed box 0.000 0.000 0.000 1.000 1.000 1.000
register west box 0.000 0.000 0.000 1.000 1.000 1.000
subdivide west 2 a prism 0.000 3.000 4 0.000 0.000 3.000 0.000 3.000 8.000 0.000 8.000 b prism 0.000 3.000 4 2.000 0.000 5.000 0.000 6.000 8.000 2.000 8.000
subdivide west 2 a prism 0.000 3.000 4 0.000 0.000 2.000 0.000 2.000 8.000 0.000 8.000 b prism 0.000 3.000 4 3.000 0.000 5.000 0.000 6.000 8.000 3.000 8.000
subdivide west 2 a prism 0.000 4.000 4 0.000 0.000 2.000 0.000 2.000 8.000 0.000 8.000 b prism 0.000 3.000 4 2.000 0.000 5.000 0.000 6.000 8.000 2.000 8.000
retire west
register late box 0.000 0.000 0.000 1.000 1.000 1.000
"""
# The line, the cause, the others, the area in plan and the volume of what is in the way.
WANTED = [(4, "overlaps", "west", 0.4, 1.2), (5, "syntax", None, None, None), (6, "known", "west", None, None),
          (7, "childrenoverlap", "a,b", 8.0, 24.0), (8, "gap", None, 8.0, 24.0), (9, "outside", "a", 16.0, 16.0)]


@pytest.fixture
def found(store):
    def of(text):
        made, run = conflicts.conflicts(script.script_of(text.encode()), lots.Place(), PROGRAM)
        return made, run.check

    return of


def test_what_is_in_the_way_by_hand(found):
    made, check = found(TEXT)
    told = [conflicts.attributes(each) for each in made]
    assert check == "accepted" and [(each["line"], each["cause"], each["others"], each["area"], each["volume"]) for each in told] == WANTED
    assert told[0]["says"] == "Line 4 (in an editor 5): east was not registered, because it overlaps the lot west, which is there since line 3 (in an editor 4)."
    assert (told[0]["id"], told[0]["base"], told[0]["height"], told[0]["up"], told[0]["editor_line"]) == ("east", 0, 3, 3, 5)


def test_points_lie_in_areas(found):
    geometry = pytest.importorskip("shapely.geometry", reason="python3-shapely is not there")
    made, _ = found(TEXT)
    for each in made:
        assert (each.region is None) == (each.refused.answer.verdict.cause in ("syntax", "known"))
        if each.region:
            point, polygon = (conflicts.GEOMETRIES[form](lots.Place(), each.region) for form in ("points", "areas"))
            polygon = geometry.shape(polygon)
            assert polygon.is_valid and polygon.contains(geometry.shape(point)) and abs(polygon.area - conflicts.attributes(each)["area"]) < 1e-6
            assert each.region.box[0][2] < 1000 * point["coordinates"][2] < each.region.box[1][2]


def test_a_sliver_between_real_lots(found):
    text = "rp 2\nregister a prism 0.000 3.000 3 0.000 0.000 9.000 0.000 0.000 7.000\nregister b prism 0.000 3.000 4 9.000 0.000 9.000 7.000 0.000 7.000 4.501 3.499\n"
    [each], _ = found(text)
    told = conflicts.attributes(each)
    # The corner lies 1 mm within: a triangle over the slanted side of a.
    assert each.refused.answer.verdict.cause == "overlaps" and told["volume"] == pytest.approx(told["area"] * 3) and 0 < told["area"] < 0.01


def test_nothing_is_refused(found):
    assert found("rp 2\nregister a box 0.000 0.000 0.000 1.000 1.000 1.000\n") == ([], "accepted")


def test_the_words(store):
    status, out, said = ran(["explain", "--geojson", "areas"], TEXT.encode())
    told = json.loads(out)
    assert status == 1 and said == "rpstore-gis: 6 refused lines; report accepted\n"
    assert told["crs"]["properties"]["name"].endswith(":25832") and [each["geometry"] and each["geometry"]["type"] for each in told["features"]] == [
        "MultiPolygon", None, None, "MultiPolygon", "MultiPolygon", "MultiPolygon"]
    assert ran(["explain", "--geojson", "points"], store(TEXT))[0] == 2


def test_all_lots_that_a_refused_line_overlaps(store, tmp_path):
    text = """rp 2
register a box 0.000 0.000 0.000 4.000 4.000 4.000
register b box 4.000 0.000 0.000 8.000 4.000 4.000
layer rights
register way box 0.000 0.000 0.000 8.000 4.000 4.000
layer base
register wide box 3.000 0.000 0.000 9.000 4.000 4.000
register apart box 8.000 0.000 0.000 9.000 4.000 4.000
register high box 0.000 0.000 3.000 9.000 4.000 5.000
retire nobody
"""
    path = tmp_path / "flats.rp"
    path.write_text(text)
    # The right of way is of another layer, and `apart` came after `wide` was refused.
    assert ran(["explain", str(path), "--all"]) == (1, b"Line 6 (in an editor 7): wide overlaps 2 lots: a and b.\n"
                                                    b"Line 8 (in an editor 9): high overlaps 3 lots: a, b and apart.\n", "")
