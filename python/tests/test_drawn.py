"""A region that is drawn: what lots have of the polygons of a file between two heights."""
import json

import pytest
from rpstore import plan
from test_words import ran

if plan.MISSING:
    pytest.skip(f"python3-fiona, python3-pyproj or python3-shapely is not there: {plan.MISSING}", allow_module_level=True)

PLACE = "# Grid: EPSG:25832. Local origin: E 412000, N 5765000.\n"
FLATS = f"""rp 2
{PLACE}register west box 0.000 0.000 0.000 5.000 8.000 3.000
register east box 5.000 0.000 0.000 10.000 8.000 3.000
register above box 0.000 0.000 3.000 10.000 8.000 6.000
"""


def ring(*numbers, origin=(412000, 5765000)):
    points = [[x + origin[0], y + origin[1]] for x, y in zip(numbers[::2], numbers[1::2])]
    return [*points, points[0]]


@pytest.fixture
def ask(store, tmp_path):
    """What `meets` says of polygons of a grid, each its rings and its properties."""
    def of(polygons, *words, script=FLATS, epsg=25832):
        features = [{"type": "Feature", "properties": properties, "geometry": {"type": "Polygon", "coordinates": rings}} for rings, properties in polygons]
        crs = {"crs": {"type": "name", "properties": {"name": f"urn:ogc:def:crs:EPSG::{epsg}"}}} if epsg else {}
        path = tmp_path / "drawn.geojson"
        path.write_text(json.dumps({"type": "FeatureCollection", **crs, "features": features}))
        return ran(["meets", "-", str(path), "--drawn", *words], script.encode())

    return of


def volumes(told):
    """The volume in common of each lot, from the table."""
    return {line.split(",")[0]: float(line.split(",")[6]) for line in told.decode().splitlines()[1:]}


def test_a_polygon_between_two_heights(ask):
    """It reaches 2 m into west and 1 m into east, is 4 m deep, and 2 m high, of which 0.5 m are above."""
    status, told, said = ask([([ring(3, 1, 6, 1, 6, 5, 3, 5)], {})], "--floor", "1.5", "--top", "3.5")
    assert (status, volumes(told)) == (0, {"west": 2 * 4 * 1.5, "east": 1 * 4 * 1.5, "above": 3 * 4 * 0.5})
    assert "3 lots share a point with the region; report accepted" in said


def test_heights_by_properties_a_hole_and_two_polygons(ask):
    court = [ring(1, 1, 5, 1, 5, 7, 1, 7), ring(2, 2, 2, 4, 4, 4, 4, 2)]
    status, told, _ = ask([(court, {"low": 0, "high": 1}), ([ring(6, 1, 7, 1, 6, 2)], {"low": 1, "high": 4})], "--floor", "low", "--top", "high")
    assert (status, volumes(told)) == (0, {"west": 4 * 6 - 4, "east": 0.5 * 2, "above": 0.5})


def test_another_grid(ask):
    """The same polygon in UTM 33 has the same volume, but for the rounding of its corners to the millimetre."""
    from pyproj import Transformer
    there = Transformer.from_crs(25832, 25833, always_xy=True)
    moved = [list(there.transform(*point)) for point in ring(3, 1, 6, 1, 6, 5, 3, 5)]
    status, told, _ = ask([([moved], {})], "--floor", "0", "--top", "1", epsg=25833)
    assert status == 0 and volumes(told) == pytest.approx({"west": 8, "east": 4}, abs=0.01)


def test_a_script_of_version_1(ask):
    script = PLACE + "register west box 0 0 0 5000 8000 3000\n"
    status, told, said = ask([([ring(-1, 1.0004, 2, 1, 2, 3, -1, 3)], {})], "--floor", "0.5", "--top", "1", script=script)
    assert (status, volumes(told)) == (0, {"west": 2 * 2 * 0.5}) and "of the region 1.000 m3 are in no lot" in said


@pytest.mark.parametrize("words, script, epsg, wanted", [
    (["--floor", "3", "--top", "1"], FLATS, 25832, "feature 1 (1.000 and 3.000): the top is not above the floor; correct the two heights. Nothing was asked."),
    (["--floor", "depth", "--top", "1"], FLATS, 25832, "no floor: the property 'depth' is not there"),
    (["--floor", "0", "--top", "1"], FLATS.replace(PLACE, ""), 4326, "the script names no grid. Nothing was asked: --epsg NUMBER names the grid of the script."),
])
def test_what_is_refused(ask, words, script, epsg, wanted):
    status, told, said = ask([([ring(3, 1, 6, 1, 6, 5, 3, 5)], {})], *words, script=script, epsg=epsg)
    assert status in (2, 5) and told == b"" and wanted in said
