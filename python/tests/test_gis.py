"""GeoJSON of what a report shows: its outlines, attributes and place on the map."""
from collections import Counter
from decimal import Decimal

import pytest
import sfcgal
from buildings import COURT, lines
from rpstore import Fault, city, gis


def test_a_section_is_one_area_without_inner_walls(seen):
    found = gis.sections(seen(lines("register flat or prism 0 10 4 0 0 6 0 6 4 0 4 prism 0 10 4 6 0 10 0 10 9 6 9", "section lot flat 5")))
    [feature] = found["features"]
    assert feature["properties"] == {"id": "flat", "layer": "base", "line": 2, "height": 0.005, "area": (24 + 36) / 10**6}
    [[ring]] = feature["geometry"]["coordinates"]
    assert ring[0] == ring[-1] and len(ring) == 7
    assert {tuple(point) for point in ring} == {(0, 0), (0.01, 0), (0.01, 0.009), (0.006, 0.009), (0.006, 0.004), (0, 0.004)}


def test_a_court_is_a_hole(seen):
    [feature] = gis.footprints(seen(f"register house {COURT}\n"))["features"]
    [[outer, hole]] = feature["geometry"]["coordinates"]
    assert len(outer) == len(hole) == 5 and feature["properties"]["area"] == 800 / 10**6 and feature["properties"]["volume"] == 8000 / 10**9


def test_a_place_on_the_map(seen):
    script = lines("rp 2", "# Grid: EPSG:25832. Local origin: E 412000, N 5765000.", "register a box 0.000 0.000 0.000 8.000 9.000 3.000")
    found = gis.footprints(seen(script))
    assert found["crs"]["properties"]["name"] == "urn:ogc:def:crs:EPSG::25832"
    assert [412008.0, 5765009.0] in found["features"][0]["geometry"]["coordinates"][0][0]
    assert city.model(seen(script))["transform"]["translate"] == [412000, 5765000, 0]
    moved = gis.footprints(seen(script, origin=[Decimal("100.5"), Decimal(-7)], epsg=2056))
    assert moved["crs"]["properties"]["name"].endswith(":2056") and [108.5, 2.0] in moved["features"][0]["geometry"]["coordinates"][0][0]


def test_layers_and_origins(seen):
    script = lines("register a box 0 0 0 10 10 10", "layer rights", "register way box 0 4 0 10 6 3", "cut a half 1 0 0 -4 east west", "retire way")
    found = {body.label: (body.layer, body.born, body.origins) for body in seen(script).bodies}
    assert found == {"east": ("base", 4, ("a",)), "west": ("base", 4, ("a",))}
    script = script.replace("retire way", "consolidate b 2 east west")
    assert {body.label: (body.layer, body.born, body.origins) for body in seen(script).bodies} == {"way": ("rights", 3, ()), "b": ("base", 5, ("east", "west"))}


def test_a_lot_that_ended_is_left_out(seen):
    found = seen("register a box 0 0 0 10 10 10\nshow lot a\ncut a half 1 0 0 -4 east west\nshow lot east\n")
    assert [body.label for body in found.bodies] == ["east", "west"]


def test_a_report_that_is_not_accepted(seen, store):
    report = store("register a box 0 0 0 10 10 10\nshow lot a\n").decode()
    assert len(seen(report).bodies) == 1
    with pytest.raises(Fault, match="not accepted: wrong 7"):
        seen(report.replace("(-1 0 0 10) (0 1", "(-1 0 0 11) (0 1"))


def test_nothing_to_show(seen):
    with pytest.raises(Fault, match="no lot"):
        gis.footprints(seen("member all 0 0 0 1\n"))
    with pytest.raises(Fault, match="no line `section`"):
        gis.sections(seen("register a box 0 0 0 10 10 10\n"))


def test_geojson_is_valid_by_shapely(root, seen):
    geometry = pytest.importorskip("shapely.geometry", reason="python3-shapely is not there")
    found = seen((root / "examples/plan.rp").read_text())
    for feature in gis.sections(found)["features"] + gis.footprints(found)["features"]:
        told = geometry.shape(feature["geometry"])
        assert told.is_valid and abs(told.area - feature["properties"]["area"]) < 1e-6
        assert all(polygon.exterior.is_ccw and not any(ring.is_ccw for ring in polygon.interiors) for polygon in told.geoms)


# A wall beside a slanted one, whose foot has a corner on the edge of the floor; and others.
CLOSED = ["or box 0 0 0 5 7 3 and box 5 0 0 10 7 3 half 0 2 -1 0", "minus box 0 0 0 10 7 3 box 3 -1 0 6 8 2", "minus box 0 0 0 10 7 3 box 3 -1 1 6 4 2",
          "and box 20 0 0 29 9 9 half -1 0 -2 40", COURT]
BALCONY = "or box 0 0 0 10 7 3 box 1 -2 0 8 0 2"


@pytest.mark.parametrize("region", [*CLOSED, BALCONY])
def test_faces_close(seen, region):
    """A corner of one polygon that lies on an edge of another is a corner of that one, too."""
    [feature] = gis.faces(seen(lines("register a " + region)))["features"]
    edges = Counter()
    for polygon in feature["geometry"]["coordinates"]:
        for ring in polygon:
            edges.update(zip(map(tuple, ring), map(tuple, ring[1:])))
    assert edges and all(edges[p, q] == edges[q, p] == 1 for p, q in edges)


def volumes(seen, script):
    """The volume of each lot by SFCGAL, and that of the package, in cubic metres."""
    found = seen(script)
    return {body.label: (sfcgal.solid(gis.boundary(found.place, body)["coordinates"]), float(body.volume / 10**9)) for body in found.bodies}


@pytest.mark.parametrize("region", [*CLOSED, BALCONY])
def test_faces_are_a_solid_by_sfcgal(seen, region):
    [(found, wanted)] = volumes(seen, lines("register a " + region)).values()
    assert found == pytest.approx(wanted, rel=1e-9)


def test_faces_of_a_block_are_solids_by_sfcgal(root, seen):
    """Rounded to the micrometre, the hole in the slanted wall of mill-4 no longer lies in its plane: this wall is triangles."""
    found = volumes(seen, (root / "examples/block.rp").read_text())
    assert [lot for lot, (by_sfcgal, wanted) in found.items() if by_sfcgal != pytest.approx(wanted, rel=1e-8)] == [] and len(found) == 40


def test_gdal_reads_it(root, seen, tmp_path):
    import json
    fiona = pytest.importorskip("fiona", reason="python3-fiona is not there")
    found = seen((root / "examples/plan.rp").read_text(), epsg=25832, origin=[Decimal(412000), Decimal(5765000)])
    for name, made in (("sections", gis.sections), ("lots", gis.footprints), ("faces", gis.faces)):
        path = tmp_path / f"{name}.geojson"
        path.write_text(json.dumps(made(found)))
        with fiona.open(path) as source:
            assert len(source) == (16 if name == "sections" else 8) and source.crs.to_epsg() == 25832
