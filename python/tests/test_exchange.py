"""From a plan to the register and back into a GIS: every corner comes back, and ogr2ogr takes what is written."""
import json
import re
import shlex
import shutil
import subprocess
import zipfile
from argparse import Namespace
from decimal import Decimal
from pathlib import Path

import pytest
from rpstore import gis, plan
from rpstore.place import place_of

if plan.MISSING:
    pytest.skip(f"python3-fiona, python3-pyproj or python3-shapely is not there: {plan.MISSING}", allow_module_level=True)
import fiona
from shapely.geometry import shape
from shapely.validation import explain_validity

SPDATA = Path("/usr/lib/R/site-library/spData/shapes")
NEW_YORK = Path("/usr/lib/python3/dist-packages/geopandas/datasets/nybb_16a.zip")
PRISM = re.compile(r"prism \S+ \S+ \d+ ((?:-?\d+\.\d{3} ?)+)")


def turns(a, b, c):
    return (b[0] - a[0]) * (c[1] - a[1]) != (b[1] - a[1]) * (c[0] - a[0])


def corners(ring):
    """The corners of a ring at which it turns, in thousandths, from the least one on, the same in both directions."""
    numbers = [int(word.replace(".", "")) for word in ring.split()]
    points = [*zip(numbers[::2], numbers[1::2])]
    found = [b for a, b, c in zip(points[-1:] + points, points, points[1:] + points[:1]) if turns(a, b, c)]
    at = found.index(min(found))
    round_ = found[at:] + found[:at]
    return min(tuple(round_), (round_[0], *round_[:0:-1]))


def rings_of(script):
    """The rings of each lot of a script."""
    return {line.split(" ")[1]: sorted(map(corners, PRISM.findall(line))) for line in script.split("\n") if line.startswith("register ")}


def written(path: Path, collection) -> str:
    path.write_text(json.dumps(collection))
    return str(path)


def round_trip(path, tmp_path, seen, height="1", **given):
    """The rings of a plan's lots, and of those that its sections make."""
    status, script, _ = plan.script_of(str(path), plan.Options(section=[Decimal(height)], **given))
    assert status == 0
    back = written(tmp_path / "sections.geojson", gis.sections(seen(script)))
    where = place_of(script.encode(), Namespace(origin=None, epsg=None))
    status, again, _ = plan.script_of(back, plan.Options(floor="0", top="9", origin=[where.east, where.north], source=given.get("source")))
    assert status == 0
    return rings_of(script), rings_of(again)


def test_every_corner_of_a_plan_comes_back(root, tmp_path, seen):
    there, back = round_trip(root / "examples/plan.geojson", tmp_path, seen, id="parcel", prefix="n")
    assert there == back and [len(rings) for rings in there.values()] == [1, 2, 2]


def test_lots_are_a_plan_again(root, tmp_path, seen):
    """The properties of `lots` are those that `plan` asks for."""
    _, script, _ = plan.script_of(str(root / "examples/plan.geojson"), plan.Options(id="parcel", prefix="n", bare=True))
    _, again, _ = plan.script_of(written(tmp_path / "lots.geojson", gis.footprints(seen(script))), plan.Options(bare=True))
    assert rings_of(again) == rings_of(script)
    heights = re.compile("^register (\\S+) .*?prism (\\S+ \\S+)", re.M)
    assert heights.findall(again) == heights.findall(script)
    assert [line for line in again.split("\n") if line.startswith("# Grid")] == ["# Grid: EPSG:25832. Local origin: E 412000, N 5765000."]


# ---- ogr2ogr

def lines_of_the_document(root):
    """The lines of ogr2ogr in docs/plans.md that take what is written into other formats."""
    section = (root / "docs/plans.md").read_text().split("\n## Back into a GIS\n")[1].split("\n## ")[0]
    return re.findall("`(ogr2ogr .*?)`", section)


@pytest.fixture(scope="module")
def exported(root, seen, tmp_path_factory):
    """A folder with `lots` and `faces` of a plan, and what the lines of the document make of them but those that need a
    server."""
    if not shutil.which("ogr2ogr"):
        pytest.skip("gdal-bin is not there")
    folder = tmp_path_factory.mktemp("exported")
    _, script, _ = plan.script_of(str(root / "examples/plan.geojson"), plan.Options(id="parcel", prefix="n"))
    found = seen(script)
    written(folder / "lots.geojson", gis.footprints(found))
    written(folder / "faces.geojson", gis.faces(found))
    lines = lines_of_the_document(root)
    assert len(lines) == 11
    for line in lines:
        if "PG:" not in line:
            done = subprocess.run(shlex.split(line), cwd=folder, capture_output=True, text=True)
            assert (done.returncode, done.stderr) == (0, ""), line
    return folder


@pytest.mark.parametrize("name, epsg", [("lots.gpkg", 25832), ("lots.shp", 25832), ("there.gpkg", 2056), ("degrees.geojson", 4326), ("base.gpkg", 25832)])
def test_what_ogr2ogr_makes(name, epsg, exported):
    with fiona.open(exported / name) as source:
        found = [*source]
        assert source.crs.to_epsg() == epsg
    assert [each["properties"]["id"] for each in found] == ["n123_4", "n123_5", "n124"]
    assert [each["properties"]["base"] for each in found] == [-3, -3, 0] and {each["properties"]["layer"] for each in found} == {"base"}
    if epsg == 25832:
        areas = [shape(each["geometry"]).area for each in found]
        assert all(abs(area - each["properties"]["area"]) < 1e-4 for area, each in zip(areas, found))


def test_drawings(exported):
    """Of outlines each ring is a line on the layer of its lot; edges have heights."""
    with fiona.open(exported / "lots.dxf") as source:
        assert [each["properties"]["Layer"] for each in source] == ["n123_4", "n123_5", "n123_5", "n124", "n124"]
    with fiona.open(exported / "edges.dxf") as source:
        found = [*source]
    assert {each["properties"]["Layer"] for each in found} == {"n123_4", "n123_5", "n124"}
    assert {point[2] for each in found if each["properties"]["Layer"] == "n124" for point in each["geometry"]["coordinates"]} == {0, 9.25}


def test_sql_for_postgis(exported):
    told = (exported / "lots.sql").read_text()
    assert told.count("INSERT INTO") == 3 and ",25832,'MULTIPOLYGON',2)" in told


def test_geojson_is_valid_by_geos(root, seen):
    """Of all examples that show lots or sections: outer rings counterclockwise, holes clockwise, and areas those that are told."""
    count = 0
    for path in sorted(root.glob("examples/*.rp")):
        found = seen(path.read_text())
        made = [gis.sections(found)] if any(each.polygons and each.is_bounded for each in found.slices) else []
        made += [gis.footprints(found)] if any(body.is_bounded for body in found.bodies) else []
        for feature in (feature for each in made for feature in each["features"]):
            told = shape(feature["geometry"])
            assert explain_validity(told) == "Valid Geometry", (path, feature["properties"])
            assert abs(told.area - feature["properties"]["area"]) < 1e-6 * max(1, told.area)
            assert all(polygon.exterior.is_ccw and not any(ring.is_ccw for ring in polygon.interiors) for polygon in told.geoms)
            count += 1
    assert count > 150


# ---- plans of Debian's packages

def taken(tmp_path, source, *words):
    """What ogr2ogr takes of a plan."""
    if not Path(str(source).removeprefix("/vsizip/")).exists():
        pytest.skip(f"{source} is not there")
    if not shutil.which("ogr2ogr"):
        pytest.skip("gdal-bin is not there")
    path = tmp_path / "part.gpkg"
    subprocess.run(["ogr2ogr", str(path), str(source), *words], check=True, stderr=subprocess.DEVNULL)
    return path


def test_tracts_of_syracuse(tmp_path, seen):
    """Census tracts in UTM 18N, of a grid that has no number but a name."""
    path = taken(tmp_path, SPDATA / "NY8_utm18.shp", "-where", "AREANAME = 'Syracuse city'")
    there, back = round_trip(path, tmp_path, seen, "5", id="AREAKEY", prefix="t", floor="0", top="10")
    assert len(there) == 63 and there == back


def test_tracts_of_boston(tmp_path, seen):
    """Census tracts in degrees of NAD27."""
    path = taken(tmp_path, SPDATA / "boston_tracts.shp", "-spat", "-71.1", "42.3", "-71.04", "42.36")
    there, back = round_trip(path, tmp_path, seen, "5", id="poltract", prefix="t", floor="0", top="10", to="EPSG:26919")
    assert len(there) == 73 and there == back


def test_a_borough_of_new_york(tmp_path, seen):
    """Boroughs in feet: the area of what is clipped of them is told in square feet by GEOS, and in square metres here."""
    path = taken(tmp_path, f"/vsizip/{NEW_YORK}", "-nlt", "MULTIPOLYGON", "-clipsrc", "1002000", "231000", "1012000", "241000")
    _, script, _ = plan.script_of(str(path), plan.Options(id="BoroName", floor="0", top="10", to="EPSG:32118", section=[Decimal(1)]))
    with fiona.open(path) as source:
        feet = {each["properties"]["BoroName"]: shape(each["geometry"]).area for each in source}
    found = {each.label: float(each.area) / 10**6 for each in seen(script).slices}
    assert set(found) == set(feet) == {"Bronx", "Manhattan"}
    assert all(abs(found[name] / (feet[name] * (1200 / 3937) ** 2) - 1) < 1e-6 for name in feet)
