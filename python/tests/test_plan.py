"""Plans of any format become scripts: what is written, what is refused, and that the points stay what they were."""
import json
import math
import random
from decimal import Decimal

import pytest
from rpstore import Fault, plan, usage

if plan.MISSING:
    pytest.skip(f"python3-fiona, python3-pyproj or python3-shapely is not there: {plan.MISSING}", allow_module_level=True)
import fiona
from conftest import PROGRAM
from pyproj import CRS
from test_words import ran


def shape(kind, coordinates, **properties):
    return {"type": "Feature", "properties": properties, "geometry": {"type": kind, "coordinates": coordinates}}


def closed(*corners):
    return [*map(list, corners), list(corners[0])]


UNIT = closed((0, 0), (8, 0), (8, 9), (0, 9))
COURT = closed((2, 3), (2, 5), (4, 5), (4, 3))
PRISM = "prism 0.000 7.500 4 0.000 0.000 8.000 0.000 8.000 9.000 0.000 9.000"
HOLE = "prism 0.000 7.500 4 2.000 3.000 2.000 5.000 4.000 5.000 4.000 3.000"
HEAD = "# Grid: none. Local origin: E 0, N 0."
SAYS = "# Coordinates are metres from the local origin, heights as in the plan."
NO_GRID = f"{SAYS} The plan names no grid; its numbers are taken as metres."
UTM = "urn:ogc:def:crs:EPSG::25832"


def lot(rings=(UNIT,), kind="Polygon", **properties):
    return shape(kind, [*rings], **{"id": "a", "base": 0, "height": 7.5, **properties})


@pytest.fixture
def written(tmp_path):
    """Writes a text, or features as GeoJSON with a grid or without, and gives the path."""
    def write(*features, crs=None, text=None, name="plan.geojson"):
        told = {"type": "FeatureCollection", "features": [*features]}
        if crs:
            told["crs"] = {"type": "name", "properties": {"name": crs}}
        path = tmp_path / name
        path.write_bytes((json.dumps(told) if text is None else text).encode())
        return str(path)

    return write


def script(path, source="metres", bare=True, **given):
    """The status, the lines behind `rp 2`, and the lines on standard error."""
    status, text, said = plan.script_of(path, plan.Options(source=source, bare=bare, **given))
    lines = text.split("\n")
    assert not text or (lines[0], lines[-1]) == ("rp 2", "")
    return status, lines[1:-1], said


# Features, options, and the lines of the script.
WRITTEN = [
    ([lot()], {}, [f"register a {PRISM}"]),
    ([lot([[[*at, 1] for at in UNIT]])], {}, [f"register a {PRISM}"]),
    ([lot([UNIT, COURT], base="0", height="7.50")], {}, [f"register a minus {PRISM} {HOLE}"]),
    ([lot([[COURT], [UNIT, COURT]], "MultiPolygon")], {}, [f"register a or {HOLE} minus {PRISM} {HOLE}"]),
    ([{"type": "Feature", "properties": {}, "geometry": {"type": "GeometryCollection", "geometries": [lot()["geometry"]]}}],
     {"number": True, "prefix": "p", "floor": "0", "top": "7.5"}, [f"register p1 {PRISM}"]),
    ([lot(UNIT, "LineString")], {}, [f"register a {PRISM}"]),
    ([lot(lot="12/3")], {"id": "lot", "prefix": "n"}, [f"register n12_3 {PRISM}"]),
    ([lot(parcel=7.0)], {"id": "parcel", "prefix": "n"}, [f"register n7 {PRISM}"]),
    ([lot(parcel="0815")], {"id": "parcel", "prefix": "n"}, [f"register n0815 {PRISM}"]),
    ([lot([closed((0, 0), (1, 1), (1, 0), (0, 1))], height=1)], {},
     ["# feature 1, a: a ring crosses or touches itself; it is taken by parity: the outer ring at 0.500 0.500",
      "register a prism 0.000 1.000 4 0.000 0.000 1.000 1.000 1.000 0.000 0.000 1.000"]),
    ([lot(), shape("Point", [0, 0], id="b", base=0, height=1)], {"leave_out": True},
     [f"register a {PRISM}", "# left out: feature 2, b: no polygon and no closed line: Point"]),
    ([lot(storeys="3")], {"storeys": "storeys", "storey_height": "2.5"},
     [f"register a.{number} {PRISM.replace('0.000 7.500', heights, 1)}" for number, heights in
      enumerate(["0.000 2.500", "2.500 5.000", "5.000 7.500"], 1)]),
    ([lot(), lot([COURT], id="b", base=5)], {"section": [Decimal(1), Decimal("5.5")]},
     [f"register a {PRISM}", f"register b {HOLE.replace('0.000', '5.000', 1)}", "section lot a 1.000", "section lot a 5.500", "section lot b 5.500"]),
    ([lot(owner="M\u00fcller\n\u2026", area=None)], {"bare": False},
     [f"register a {PRISM}", '# {"id": "a", "base": 0, "height": 7.5, "owner": "M\\u00fcller\\n\\u2026"}']),
]


@pytest.mark.parametrize("features, given, lines", WRITTEN)
def test_scripts(features, given, lines, written):
    status, told, _ = script(written(*features), **given)
    assert (status, told) == (int(given.get("leave_out", False)), [HEAD, NO_GRID, *lines])


def test_rounding_and_the_origin(written):
    ring = [[412999.9995, 5765000], [413008, 5765000], [413008, 5765000], [413008.0004, 5765000], [413000, 5765009.5], [412999.9995, 5765000]]
    path = written(lot([ring], base=-1, height=1.0005), crs=UTM)
    assert script(path, None)[1] == [
        "# Grid: EPSG:25832. Local origin: E 413000, N 5765000.", SAYS,
        "# Rounded to the millimetre: 3 of 12 coordinates.", "register a prism -1.000 1.001 3 0.000 0.000 8.000 0.000 0.000 9.500"]
    assert "prism -1.000 1.001 3 9.500 0.000 17.500 0.000 9.500 9.500" in script(path, origin=[Decimal("412990.5"), Decimal(5765000)])[1][-1]


def test_an_origin_that_is_given(written):
    _, lines, _ = script(written(lot()), origin=[Decimal(-1), Decimal("0.5")])
    assert lines == [HEAD.replace("E 0, N 0", "E -1, N 0.5"), NO_GRID,
                     "register a prism 0.000 7.500 4 1.000 -0.500 9.000 -0.500 9.000 8.500 1.000 8.500"]


def test_a_grid_without_a_number():
    """Its name is in the note for people, which is one line whatever the name has."""
    drawn = CRS.from_user_input("+proj=tmerc +lat_0=0 +lon_0=10.5 +k=1 +x_0=0 +y_0=0 +datum=WGS84").to_wkt()
    works = CRS.from_user_input(drawn.replace('"unknown"', '"the works\nof 1931"', 1))
    first, second = plan.notes_of([], (412000500, 0), (works, works))
    assert (first, second) == ("# Grid: without a number. Local origin: E 412000.5, N 0.", f"{SAYS} The grid is called the works of 1931.")


def test_an_origin_in_whole_metres(written):
    """From whole kilometres this triangle, 16.7 km wide, reaches too far."""
    status, lines, _ = script(written(lot([closed((100200, 0), (116900, 0), (116900, 9))])))
    assert status == 0 and lines[0] == "# Grid: none. Local origin: E 108550, N 4."


# A feature, and what is told of it.
UNFIT = [
    (lot([UNIT[:-1]]), "feature 1, a (the outer ring): a ring is open"), (lot([UNIT, COURT[:-1]]), "feature 1, a (hole 1): a ring is open"),
    (lot([[UNIT], [UNIT, COURT[:-1]]], "MultiPolygon"), "feature 1, a (hole 1 of polygon 2): a ring is open"),
    (shape("Polygon", [UNIT], id="a", height=1), "feature 1, a: no floor: the property 'base' is not there; the properties are id, height"),
    (shape("Polygon", [UNIT], id="a", base=0), "feature 1, a: no top: the property 'height' is not there; the properties are id, base"),
    (lot(base=None), "feature 1, a: no floor: the property 'base' is "), (lot(height="7 m"), "feature 1, a ('7 m'): the top is no number"),
    (lot(base=7.5), "feature 1, a (7.500 and 7.500): the top is not above the floor"),
    (lot(base=9), "feature 1, a (7.500 and 9.000): the top is not above the floor"),
    (lot(height=16777.217), "feature 1, a (16777.217): the top is more than 16777.216 m from 0"),
    (lot(height=1e300), "feature 1, a (1E+300): the top is more than 16777.216 m from 0"),
    (shape("Polygon", [UNIT], base=0, height=1), "feature 1: no id: the property 'id' is not there; the properties are base, height"),
    (lot(id=12), "feature 1 ('12'): the id does not fit"), (lot(id="a" * 33), f"feature 1 ('{'a' * 33}'): the id does not fit"),
    (lot(id="a b"), "feature 1 ('a b'): the id does not fit"), (lot(id="\u00e4\n"), r"feature 1 ('\xe4\n'): the id does not fit"),
    (lot([]), "feature 1, a (none at all): no polygon"), (lot([[]]), "feature 1, a (Polygon): no polygon, or one with an empty ring"),
    (lot([closed((0, 0), (8, 0), (4, 0))]), "feature 1, a (the outer ring): a ring has no area, to the millimetre"),
    (lot([closed((0, 0), (8, 0), (4, 0.0004))]), "feature 1, a (the outer ring): a ring has no area, to the millimetre"),
    (lot(UNIT[:-1], "LineString"), "feature 1, a (LineString): no polygon and no closed line"),
    (lot([closed((0, 0), (9e9, 0), (0, 9))]), "feature 1, a (the outer ring at 9000000000.0 0.0): a corner is more than 8388.608 m"),
    ({"type": "Feature", "properties": {"id": "a", "base": 0, "height": 1}, "geometry": None}, "feature 1, a (none at all): no polygon"),
]


@pytest.mark.parametrize("feature, told", UNFIT)
def test_what_cannot_be_registered(feature, told, written):
    status, lines, said = script(written(feature), origin=[Decimal(0)] * 2)
    assert (status, lines, said[-1]) == (4, [], "nothing was written: 1 of 1 cannot be registered: correct them in the plan")
    assert [line for line in said if line.startswith(told)]
    status, lines, said = script(written(feature, lot(id="b")), leave_out=True, origin=[Decimal(0)] * 2)
    assert status == 1 and lines[-2].startswith("# left out: feature 1") and lines[-1] == f"register b {PRISM}"


def test_a_height_that_is_no_number(written):
    assert script(written(lot(base=True)))[2][0] == "feature 1, a (True): the floor is no number; write metres as 3.50"


def test_all_causes_at_once_and_equal_ones_together(written):
    features = [shape("Polygon", [UNIT if number else UNIT[:-1]], name=f"{number}", low=0) for number in range(7)]
    status, _, said = script(written(*features), id="name")
    assert status == 4 and said == [
        "7 of 7 features: the id does not fit: it has 1 to 32 of the letters a to z and A to Z, the digits, _, - and ., and a letter is the first "
        "(--prefix puts letters before it): feature 1 ('0'); feature 2 ('1'); feature 3 ('2'); feature 4 ('3'); feature 5 ('4') ..",
        "7 of 7 features: no floor: the property 'base' is not there; the properties are name, low; fill it, or name another by --floor",
        "7 of 7 features: no top: the property 'height' is not there; the properties are name, low; fill it, or name another by --top",
        "feature 1 (the outer ring): a ring is open: it does not end with the point at which it begins; end it with this point",
        "nothing was written: 7 of 7 cannot be registered: correct them in the plan"]


def test_an_id_that_comes_twice(written):
    assert script(written(lot(), lot()))[2][0] == "feature 2, a (feature 1): the id is that of a feature before; give it another id, or take --number with --prefix"


def test_a_plan_that_is_too_wide_is_told_once(written):
    """Beside a lot far away the others are taken, and that one is named, with the way to clip the plan."""
    squares = [lot([closed((x, 0), (x + 1, 0), (x, 1))], id=f"b{x}") for x in (1000, 30000)]
    status, lines, said = script(written(lot(), *squares), leave_out=True)
    assert status == 1 and len(lines) == 5 and len(said) == 2
    assert said[0].startswith("left out: feature 3, b30000 (the outer ring at 30000.0 0.0): a corner is more than 8388.608 m")
    assert said[1].startswith("the plan reaches over 30001 m from west to east and 9 m from south to north, and a register over 16777.216 m")


# What is no plan, as GeoJSON or as a table with a column WKT.
UNREADABLE = ["", "\n# a note\n", "{", '{"type": "FeatureCollection", "features": []}', "{}", '{"a":' + "[" * 1000, "[1, 2]"]
NO_WKT = ["POLYGON", "POLYGON ((0 0, 1 0, 0 1, 0 0)", "POLYGON ((0 0, 1 x, 0 1, 0 0))", "POLYGON ((0 0,, 1 0, 0 1, 0 0))", "POLYGON EMPTY",
          "POLYGON ((0 0, 1 0, 0 1, 0 0) (0 0))", "POLYGON" + "(" * 1000, "LINESTRING(0 0, 1 1)"]


@pytest.mark.parametrize("text", UNREADABLE)
def test_what_is_no_plan(text, written):
    with pytest.raises(Fault) as found:
        script(written(text=text))
    assert found.value.status == 3


@pytest.mark.parametrize("text", NO_WKT)
def test_what_is_no_polygon_in_a_table(text, written):
    status, lines, said = script(written(text=f'id,base,height,WKT\na,0,7.5,"{text}"\n', name="plan.csv"), source="EPSG:25832")
    assert (status, lines) == (4, []) and said[0].startswith("feature 1, a")


# ---- grids

def test_degrees_are_projected_by_proj(written):
    """The middle of the zone, on the equator: E 500000, N 0. A thousandth of a degree to the east is 111.275 m at the scale
    0.9996."""
    path = written(lot([closed((9, 0), (9.001, 0), (9, 0.001))]))
    with pytest.raises(Fault, match=r"in degrees, of WGS 84, .* as EPSG:32632 would do here; --from metres") as found:
        script(path, None)
    assert found.value.status == 5
    _, lines, _ = script(path, None, to="EPSG:25832")
    assert lines[:2] == ["# Grid: EPSG:25832. Local origin: E 500000, N 0.", f"{SAYS} Projected from WGS 84."]
    assert " 3 0.000 0.000 111.275 0.000 0.000 110.530" in lines[-1]


def test_numbers_that_are_no_degrees(written):
    with pytest.raises(Fault, match="has no such numbers. .* --from metres"):
        script(written(lot([closed((500, 0), (501, 0), (501, 1))])), None)


def test_feet_are_told_from_metres(written):
    """EPSG:2263 is in US survey feet, of 1200/3937 m; EPSG:32118 is the same projection in metres."""
    east, north = 980000, 200000
    path = written(lot([closed((east, north), (east + 3937, north), (east + 3937, north + 3937))]), crs="urn:ogc:def:crs:EPSG::2263")
    with pytest.raises(Fault, match="in the unit US survey foot, .* as EPSG:32618 would do here"):
        script(path, None)
    _, lines, _ = script(path, None, to="EPSG:32118")
    numbers = [float(word) for word in lines[-1].split()[6:]]
    assert [round(b - a, 3) for a, b in zip(numbers, numbers[2:])] == [1200, 0, 0, 1200]
    with pytest.raises(Fault, match="US survey foot, and a register is in metres"):
        script(written(lot(), crs=UTM), None, to="EPSG:2263")


def test_grids_that_do_not_do(written, tmp_path):
    path = written(lot(), crs=UTM)
    for given, told in (({"to": "EPSG:0"}, "no grid has the name 'EPSG:0'"), ({"to": "EPSG:4326"}, "in degrees"), ({"source": "EPSG:4326"}, "in degrees")):
        with pytest.raises(Fault, match=told):
            script(path, **{"source": None, **given})
    with pytest.raises(Fault, match="does not say in which grid"):
        script(path, to="EPSG:25832")
    datum = 'GEOGCS["none",DATUM["none",SPHEROID["none",6378249,293.46]],PRIMEM["Greenwich",0],UNIT["degree",0.0174532925199433]]'
    with pytest.raises(Fault, match="only roughly how none lies to ETRS89"):
        script(path, datum, to="EPSG:25832")
    with pytest.raises(Fault, match="does not read"):
        script(str(tmp_path / "none.geojson"))


# ---- formats

@pytest.mark.parametrize("driver, suffix", [("GPKG", "gpkg"), ("ESRI Shapefile", "shp"), ("FlatGeobuf", "fgb"), ("GML", "gml"), ("GeoJSONSeq", "geojsonl")])
def test_formats(driver, suffix, tmp_path):
    if "w" not in fiona.supported_drivers.get(driver, ""):
        pytest.skip(f"fiona does not write {driver}")
    path = str(tmp_path / f"plan.{suffix}")
    schema = {"geometry": "Polygon", "properties": {"id": "str", "base": "float", "height": "float"}}
    # GeoJSONSeq has degrees alone.
    crs, options = ("EPSG:4326", {"source": "EPSG:25832"}) if driver == "GeoJSONSeq" else ("EPSG:25832", {"source": None})
    with fiona.open(path, "w", driver=driver, schema=schema, crs=crs) as sink:
        sink.write({"geometry": {"type": "Polygon", "coordinates": [UNIT, COURT]}, "properties": {"id": "a", "base": 0.0, "height": 7.5}})
    _, lines, _ = script(path, **options)
    assert lines[0] == HEAD.replace("none", "EPSG:25832") and lines[1].startswith(SAYS) and lines[2].startswith("register a minus prism 0.000 7.500 4 ")


KML = ('<kml xmlns="http://www.opengis.net/kml/2.2"><Document><Placemark><name>a</name><Polygon><outerBoundaryIs><LinearRing><coordinates>'
       "13.400,52.500 13.401,52.500 13.401,52.501 13.400,52.500</coordinates></LinearRing></outerBoundaryIs></Polygon></Placemark></Document></kml>")


OSM = ('<osm version="0.6"><node id="1" lat="52.5" lon="13.4" version="1"/><node id="2" lat="52.5" lon="13.401" version="1"/>'
       '<node id="3" lat="52.501" lon="13.401" version="1"/><way id="7" version="1"><nd ref="1"/><nd ref="2"/><nd ref="3"/><nd ref="1"/>'
       '<tag k="building" v="yes"/></way></osm>')


@pytest.mark.parametrize("text, name, given", [(KML, "plan.kml", {"id": "Name"}), (OSM, "plan.osm", {"layer": "multipolygons", "number": True, "prefix": "a"})])
def test_formats_that_fiona_does_not_try(written, text, name, given):
    _, told, _ = plan.script_of(written(text=text, name=name), plan.Options(floor="0", top="3", to="EPSG:25833", **given))
    assert "# Grid: EPSG:25833. " in told and " Projected from WGS 84." in told
    assert told.count("\nregister ") == 1 and " prism 0.000 3.000 3 390.731 -144.759 458.608 -146.263 461.071 -35.042\n" in told


DEGREES = [(-106.48912, 35.11034), (-106.47123, 35.11034), (-106.47123, 35.13391)]


def of_no_grid(written, corners, **given):
    """What is made of a table that names no grid."""
    table = f'id,WKT\na,"POLYGON (({",".join(f"{x} {y}" for x, y in closed(*corners))}))"\n'
    return plan.script_of(written(text=table, name="plan.csv"), plan.Options(floor="0", top="3", **given))


@pytest.mark.parametrize("given", [{}, {"to": "EPSG:32613"}])
def test_numbers_of_no_grid_that_may_be_degrees_are_refused(written, given):
    with pytest.raises(Fault, match="the plan names no grid, and its numbers may be degrees: all are from -180 to 180, and 8 of 8 have") as fault:
        of_no_grid(written, DEGREES, **given)
    assert fault.value.status == 5


@pytest.mark.parametrize("corners, given, wanted", [
    (DEGREES, {"source": "metres"}, "3 -106.489 35.110 -106.471 35.110 -106.471 35.134"), (DEGREES, {"source": "EPSG:4326", "to": "EPSG:32613"}, " prism "),
    ([(0, 0), (8.5, 0), (8.5, 9.25)], {}, "3 0.000 0.000 8.500 0.000 8.500 9.250"), ([(-106489.12, 35.11034), (-106471.23, 35.11034), (-106471.23, 35.13391)], {}, " prism "),
    ([(0, 0), (8.50001, 0), (8.5, 9.25)], {}, "8.500 0.000"), ([(0.00001, 90.00001), (8.50001, 90.00001), (8.50001, 99.25001)], {}, " prism ")])
def test_numbers_of_no_grid_that_are_metres(written, corners, given, wanted):
    status, told, _ = of_no_grid(written, corners, **given)
    assert status == 0 and wanted in told


def test_a_table_with_wkt(written):
    text = "id,base,height,WKT\r\na,0,7.5,\"POLYGON Z ((0 0 1, 8 0 1, 8 9 2, 0 9 2, 0 0 1))\"\r\n"
    path = written(text=text, name="plan.csv")
    status, lines, said = script(path, source="EPSG:25832")
    assert (status, lines) == (0, [HEAD.replace("none", "EPSG:25832"), SAYS, f"register a {PRISM}"]) and said == ["points have heights of their own, which are not used"]
    assert script(path, source=None)[1][1] == NO_GRID


def test_layers_of_a_plan(tmp_path):
    path = str(tmp_path / "plan.gpkg")
    schema = {"geometry": "Polygon", "properties": {"id": "str"}}
    for name in "ab":
        with fiona.open(path, "w", driver="GPKG", schema=schema, crs="EPSG:25832", layer=name) as sink:
            sink.write({"geometry": {"type": "Polygon", "coordinates": [UNIT]}, "properties": {"id": name}})
    _, lines, said = script(path, None, floor="0", top="7.5")
    assert lines[-1] == f"register a {PRISM}" and said == ["the plan has the layers a, b, of which the first is read: --layer names another"]
    assert script(path, None, layer="b", floor="0", top="7.5")[1][-1] == f"register b {PRISM}"


def test_a_drawing(tmp_path):
    """A closed polyline of a DXF drawing, by its layer."""
    ezdxf = pytest.importorskip("ezdxf", reason="python3-ezdxf is not there")
    drawing = ezdxf.new()
    drawing.modelspace().add_lwpolyline([(0, 0), (8, 0), (8, 9), (0, 9)], close=True, dxfattribs={"layer": "flat-1"})
    drawing.saveas(tmp_path / "plan.dxf")
    assert script(str(tmp_path / "plan.dxf"), None, id="Layer", floor="0", top="7.5")[1][1:] == [NO_GRID, f"register flat-1 {PRISM}"]


# ---- many corners

def circle(count, radius=400):
    return closed(*((round(radius * math.cos(2 * k * math.pi / count), 3), round(radius * math.sin(2 * k * math.pi / count), 3)) for k in range(count)))


def test_a_ring_with_many_corners_is_cut(written):
    _, lines, _ = script(written(lot([circle(300)])))
    assert lines[-1].count(" or and box ") == 1 and lines[-1].count(" and box ") == 2


def test_a_comb_cannot_be_cut(written):
    """The teeth of this comb all cross one upright line."""
    comb = closed(*((x, y) for y in range(300) for x in ((0, 900) if y % 2 else (900, 0))), (-1, 300), (-1, 0))
    status, _, said = script(written(lot([comb])))
    assert status == 4 and "no cut along x helps" in said[0] + said[1]


def test_ten_thousand_features(written):
    squares = (lot([closed((x, 0), (x + 1, 0), (x + 1, 1), (x, 1))], id=f"p{x}") for x in range(10000))
    status, lines, said = script(written(*squares))
    assert (status, said, sum(line.startswith("register ") for line in lines)) == (0, [], 10000)


def drawn_ring(rng, count, middle, size):
    """A ring round a middle, at whole metres, which may cross itself."""
    turns = sorted(rng.random() for _ in range(count))
    ways = [(size * rng.uniform(0.3 if count < 99 else 0.9, 1), 2 * math.pi * turn) for turn in turns]
    return closed(*[(middle[0] + round(far * math.cos(turn)), middle[1] + round(far * math.sin(turn))) for far, turn in ways])


def is_odd(ring, point):
    """Whether an odd number of edges of a ring are above a point; a rising edge also is above its own points."""
    odd = False
    for (xl, yl), (xr, yr) in map(sorted, zip(ring, ring[1:])):
        if xl <= point[0] < xr:
            below = (yr - yl) * (point[0] - xl) - (xr - xl) * (point[1] - yl)
            odd ^= below > 0 or (below == 0 and yr > yl)
    return odd


@pytest.mark.parametrize("seed", range(12))
def test_drawn_polygons_keep_their_points(seed, written, store):
    """What is written for a polygon with holes has the points of the plan, off its edges and at its corners."""
    rng = random.Random(seed)
    for _ in range(10):
        outer = drawn_ring(rng, rng.choice([3, 5, 12, 40] * 6 + [300, 700]), (0, 0), 400)
        holes = [drawn_ring(rng, rng.randint(3, 9), (rng.randint(-100, 100), rng.randint(-100, 100)), 60) for _ in range(rng.randint(0, 3))]
        status, lines, said = script(written(lot([outer, *holes])))
        if status:
            assert said[0].endswith("a ring has no area, to the millimetre")
            continue
        points = [(rng.randint(-800, 800) / 2, rng.randint(-800, 800) / 2) for _ in range(25)] + rng.sample(outer, 3)
        expression = lines[-1].split(" ", 2)[2]
        asked = "".join(f"member {expression} {x:.3f} {y:.3f} 0.000 1\n" for x, y in points)
        wanted = [is_odd(outer, at) and not any(is_odd(hole, at) for hole in holes) for at in points]
        told = store(f"rp 2\n{asked}", "run", "brief").decode().split("\n")[2::2]
        assert told == [f"= {'yes' if each else 'no'}" for each in wanted]


def test_the_words_of_the_command_line(written):
    path = written(lot())
    words = ["plan", path, "--from", "metres", "--bare", "--section", "1", "--section", "9", "--origin", "0", "0"]
    status, told, said = ran([*words, "--store", "/none"])
    assert status == 0 and told.decode() == "\n".join(["rp 2", HEAD, NO_GRID, f"register a {PRISM}", "section lot a 1.000", ""])
    assert said == (f"rpstore-gis: limits: 1 of 1,024 words of a line, 4 of 256 corners of a prism, {len('register a ' + PRISM)} of 262,144 bytes of a line, "
                    f"{len(told)} of 16,777,216 bytes of a script; parts are not counted, of which all lots have at most 65,536: the store /none cannot be run: "
                    "No such file or directory\n")
    assert ran(["plan", path])[::2] == (5, "rpstore-gis: the plan is in degrees, of WGS 84, and a register in metres. Nothing was written: --to EPSG:NUMBER "
                                           "names its grid, as EPSG:32631 would do here; --from metres says that the plan is in metres of no grid.\n")
    assert ran(["plan", path + "x"])[0] == 3 and ran(["plan", path, "--from", "metres", "--top", "roof"])[0] == 4


# ---- how near to the limits

def test_how_near_a_plan_comes_to_each_limit(written, store):
    """A square with a court: above the court is a part, and below it, left and right of it."""
    features = [lot([UNIT, COURT]), lot([closed((10, 0), (12, 0), (12, 9), (10, 9))], id="b"), lot([closed((20, 0), (29, 0), (25, 9))], id="c")]
    status, lines, said = script(written(*features), program=PROGRAM)
    register = [line for line in lines if line.startswith("register")]
    size = sum(len(line) + 1 for line in ["rp 2", *lines])
    assert status == 0 and said[-1].startswith("limits: ")
    told = dict(reversed(each.split(" of ", 1)) for each in said[-1][len("limits: "):].split(", ") if " of " in each)
    parts = [len(answer) for answer in shown(store, register)]
    assert parts == [4, 1, 2] and said[-1] == (
        "limits: 7 of 65,536 parts of all lots, 4 of 1,024 parts of a lot, 6 of 32 half-spaces of a part, 3 of 1,024 words of a line, 4 of 256 corners of a prism, "
        f"{max(map(len, register))} of 262,144 bytes of a line, {size:,} of 16,777,216 bytes of a script")


def shown(store, register):
    """The parts of each lot."""
    from rpstore import report
    import io
    ids = [line.split(" ")[1] for line in register]
    told = store("\n".join(["rp 2", *register, *(f"show lot {name}" for name in ids), ""]), "run", "brief")
    return [answer.verdict for answer in report.read(io.BytesIO(told)) if answer.command.word == "show"]


def test_a_lot_that_the_store_would_refuse_is_told_before(written, store):
    """250 houses with a court of four corners each, five parts or more, where a lot may have 1,024."""
    def moved(ring, x):
        return [[at[0] + x, at[1]] for at in ring]

    court = closed((2, 2), (5, 3), (5, 5), (3, 5))
    houses = lot([[moved(UNIT, 10 * at), moved(court, 10 * at)] for at in range(250)], "MultiPolygon", id="street")
    status, lines, said = script(written(houses, lot([closed((0, 20), (9, 20), (9, 29))], id="b")), program=PROGRAM)
    assert (status, lines) == (4, []) and said[-1] == "nothing was written: 1 of 2 cannot be registered: correct them in the plan, or leave them out by --leave-out"
    assert said[0].startswith("feature 1, street (") and "250 operands, and a form has at most 1,024): the store refuses its form, which meets a limit" in said[0]
    status, lines, said = script(written(houses, lot([closed((0, 20), (9, 20), (9, 29))], id="b")), program=PROGRAM, leave_out=True)
    assert status == 1 and [line.split(" ")[1] for line in lines if line.startswith("register")] == ["b"] and "limits: 1 of 65,536 parts of all lots" in said[-1]


def test_a_register_without_room():
    forms = usage.Forms([usage.Form(1000, 6)] * 66, {})
    with pytest.raises(Fault, match="the lots have 66,000 parts, and all lots of a register keep at most 65,536") as fault:
        usage.see_room(["register a all"] * 66, forms)
    assert fault.value.status == 4
    usage.see_room(["register a all"] * 65, usage.Forms([usage.Form(1000, 6)] * 65, {}))
    with pytest.raises(Fault, match="the lots have 65,537 parts"):
        usage.see_room(["register a all"] * 65537, usage.Forms([], {}, "the store is not there"))


def test_a_store_that_is_not_built_is_not_asked(tmp_path):
    (tmp_path / "crates/rp_cli/src").mkdir(parents=True)
    assert usage.forms_of(["register a all"], str(tmp_path / "rpstore")).unknown == f"the store {tmp_path}/rpstore is not built"
