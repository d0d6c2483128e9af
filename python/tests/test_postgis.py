"""SQL for PostGIS: by what a server that the tests start has, and answers."""
import json
import re
import shlex
import shutil
import subprocess

import postgres
import pytest
from conftest import PROGRAM
from rpstore import gis, lots, postgis, script, shape, surface, times
from rpstore.place import Place
from test_shape import box
from test_words import ran

VOLUMES = """SELECT l.id, count(s.part), l.volume, coalesce(sum(ST_Volume(s.body)), 0), l.area, ST_Area(l.plan), ST_SRID(l.plan)
FROM rpstore.lot l LEFT JOIN rpstore.solid s ON s.lot = l.id GROUP BY l.id ORDER BY l.born"""


@pytest.fixture(scope="module")
def server():
    """A server for this module, with a database that is empty at first."""
    if not shutil.which("psql"):
        pytest.skip("postgresql-client is not there")
    with postgres.started() as made:
        yield made


# ---- faces

def lot(name, born, *cells):
    return lots.Body(name, True, "base", born, (), shape.apart(cells))


def metres(*ends):
    return box(*(1000 * end for end in ends))


# A wall along 3x + 7y + z = 400 with a passage through it.
SLANTED = shape.cell([(1, 0, 0, -100000), (-3, -7, -1, 400000), (0, 1, 0, 0), (0, 0, 1, 0), (0, 0, -1, 9000)])
# The lots, how many solids each has, and the volume by hand, if it is a whole number of cubic metres.
BODIES = [
    (lot("niche", 1, *metres(20, 0, 0, 30, 7, 3).minus(metres(23, -1, 0, 26, 4, 2))), 1, 10 * 7 * 3 - 3 * 4 * 2),
    (lot("balcony", 2, metres(0, 0, 0, 10, 7, 3), metres(1, -2, 0, 8, 0, 2)), 1, 10 * 7 * 3 + 7 * 2 * 2),
    (lot("cavity", 3, *metres(40, 0, 0, 50, 10, 10).minus(metres(43, 3, 3, 46, 6, 6))), 6, 1000 - 27),
    (lot("pieces", 4, metres(60, 0, 0, 61, 1, 1), metres(64, 0, 0, 66, 1, 1)), 2, 1 + 2),
    (lot("line", 5, metres(80, 0, 0, 81, 1, 1), metres(81, 1, 0, 82, 2, 1)), 2, 1 + 1),
    # 12 m by 9 m, with eaves at 6 m and a ridge at 9 m.
    (lot("roof", 6, shape.cell([(1, 0, 0, 0), (-1, 0, 0, 12000), (0, 1, 0, -100000), (0, -1, 0, 109000), (0, 0, 1, 0), (1, 0, -2, 12000), (-1, 0, -2, 24000)])),
     1, 12 * 9 * 6 + 12 * 9 * 3 / 2),
    (lot("passage", 7, *SLANTED.minus(metres(90, 3, 2, 140, 5, 4))), 1, None),
]


def test_faces_that_are_cut_into_triangles():
    """The slanted wall has a hole of four corners, and the roof and the floor are level: only the wall is cut."""
    cells = SLANTED.minus(metres(90, 3, 2, 140, 5, 4))
    whole, cut = shape.split_rings(shape.facets(cells)), surface.faces(shape.facets(cells), lambda point: gis.on_map(Place(), point))
    assert sorted(len(face) for face in whole) == [1] * 7 + [2, 2]
    # A wall of four corners with a hole of four is eight triangles; the upright wall keeps its hole.
    assert len(cut) == len(whole) - 1 + 8 and [len(face) for face in cut if len(face) > 1] == [2]
    for polygon in gis.multipolygon(Place(), [(outer, holes) for outer, *holes in cut])["coordinates"]:
        assert surface.are_in_a_plane([corner for ring in polygon for corner in ring])


def test_corners_that_are_in_no_plane():
    assert surface.are_in_a_plane([[0.0, 0.0, 1.0], [1.0, 0.0, 1.0], [1.0, 1.0, 1.0], [0.0, 1.0, 1.0]])
    assert not surface.are_in_a_plane([[0.0, 0.0, 1.0], [1.0, 0.0, 1.0], [1.0, 1.0, 1.000001], [0.0, 1.0, 1.0]])


# ---- tables

@pytest.mark.parametrize("place", [Place(), Place(412000, 5765000, 25832)])
def test_solids(server, place):
    server.run("DROP SCHEMA IF EXISTS rpstore CASCADE")
    seen = lots.Seen([body for body, _, _ in BODIES], [], place, 0, "", 2)
    server.run(postgis.sql(seen))
    rows = server.rows(VOLUMES)
    for (body, count, volume), (name, solids, told, by_sfcgal, area, in_plan, srid) in zip(BODIES, rows, strict=True):
        assert (name, int(solids), int(srid)) == (body.label, count, place.epsg or 0)
        assert volume is None or float(told) == volume
        # Of the slanted wall corners are rounded to the micrometre.
        assert float(by_sfcgal) == pytest.approx(float(told), rel=1e-9 if volume else 1e-6) and float(in_plan) == pytest.approx(float(area), rel=1e-6)


def test_again(server, store):
    """A second run has the rows of the second script alone; a view on the first ones stays."""
    server.run("DROP SCHEMA IF EXISTS rpstore CASCADE")
    one = loaded("rp 2\nregister a box 0.000 0.000 0.000 4.000 5.000 3.000\nregister b box 4.000 0.000 0.000 9.000 5.000 3.000\n")
    server.run(one)
    server.run("CREATE VIEW rpstore.high AS SELECT id FROM rpstore.lot WHERE height > 2")
    server.run(one)
    assert server.rows("SELECT id FROM rpstore.high ORDER BY id") == [("a",), ("b",)]
    server.run(loaded("rp 2\nregister c box 0.000 0.000 0.000 4.000 5.000 3.000\n"))
    assert server.rows("SELECT id FROM rpstore.high") == [("c",)] and server.rows("SELECT count(*) FROM rpstore.solid") == [("1",)]


def loaded(text):
    return postgis.sql(lots.load(text.encode(), lots.Options(store=PROGRAM)))


@pytest.mark.parametrize("name", ["block", "tunnel"])
def test_examples(server, store, root, name):
    """SFCGAL takes each lot for solids, and has the volumes that the package computes exactly."""
    server.run("DROP SCHEMA IF EXISTS rpstore CASCADE")
    server.run(loaded((root / f"examples/{name}.rp").read_text()))
    rows = server.rows(VOLUMES)
    assert rows and all(float(found) == pytest.approx(float(told), rel=1e-6) for _, _, told, found, *_ in rows)


def test_what_has_no_row(store):
    """A lot without an end; and a script that has no lot."""
    status, told, said = ran(["postgis"], b"register a box 0 0 0 9 9 9\nregister rest half 0 0 -1 -1\nlayer sky\nregister up half 0 0 1 -9\n")
    assert status == 0 and said == "rpstore-gis: no row has rest, up: a lot that reaches the end of the domain cube has no end\n"
    assert told.count(b"\nINSERT INTO rpstore.lot VALUES ('a',") == told.count(b"\nINSERT INTO rpstore.lot ") == 1
    status, told, said = ran(["postgis"], b"let a = box 0 0 0 9 9 9\n")
    assert (status, told) == (1, b"") and "after the script there is no lot" in said and "Nothing was written." in said


# ---- the page

def blocks(root):
    """The blocks of SQL of docs/postgis.md, each with what the page shows of its answer."""
    text = (root / "docs/postgis.md").read_text()
    return re.findall(r"^```sql\n(.*?)^```\n\n```text\n(.*?)^```$", text, re.M | re.S)


def test_the_page(server, store, root):
    server.run("DROP SCHEMA IF EXISTS rpstore CASCADE")
    found = times.times(script.script_of((root / "examples/book.rp").read_bytes()), Place(412000, 5765000, 25832), PROGRAM)
    server.run(postgis.sql(found.seen, found))
    pairs = blocks(root)
    assert len(pairs) == (root / "docs/postgis.md").read_text().count("```sql\n") == 5
    for query, wanted in pairs:
        lines = subprocess.run(["psql", "-X", "-q", "-A", "-v", "ON_ERROR_STOP=1", "-P", "footer=off"], env=server.env, input=query, text=True, check=True,
                               stdout=subprocess.PIPE).stdout
        assert lines == wanted, query


# ---- other ways

def test_a_plan_in_postgis_comes_back(server, store, root, tmp_path):
    """Each corner and height of a plan, and its grid, by a table that ogr2ogr made of it."""
    plan = pytest.importorskip("rpstore.plan")
    if plan.MISSING or not shutil.which("ogr2ogr"):
        pytest.skip("python3-fiona or gdal-bin is not there")
    given = dict(id="parcel", prefix="n", bare=True)
    status, wanted, _ = plan.script_of(str(root / "examples/plan.geojson"), plan.Options(**given))
    subprocess.run(["ogr2ogr", "-f", "PostgreSQL", "PG:", root / "examples/plan.geojson", "-nln", "planned", "-overwrite"], env=server.env, check=True)
    path = f"PG:dbname={postgres.DATABASE} host={server.env['PGHOST']} user={postgres.USER}"
    assert (status, plan.script_of(path, plan.Options(layer="planned", **given))[1]) == (0, wanted)
    # The same table as a drawn region, all of which is in one lot. One coordinate is rounded to the millimetre, by half of one.
    text = wanted.split("register ")[0] + "register all box 300.000 300.000 -10.000 500.000 500.000 50.000\n"
    status, told, said = ran(["meets", "-", path, "--drawn", "--drawn-layer", "planned"], text.encode())
    [[volume]] = server.rows("SELECT sum(ST_Area(wkb_geometry) * (height - base)) FROM planned")
    assert status == 0 and float(told.decode().splitlines()[1].split(",")[6]) == pytest.approx(float(volume), abs=0.1), said


def test_lots_in_postgis_are_a_plan(server, store):
    """What the store's lots cover, with their heights, is a script again."""
    plan = pytest.importorskip("rpstore.plan")
    if plan.MISSING:
        pytest.skip("python3-fiona is not there")
    server.run("DROP SCHEMA IF EXISTS rpstore CASCADE")
    server.run(loaded("rp 2\n# Grid: EPSG:25832. Local origin: E 412000, N 5765000.\nregister a box 0.000 0.000 0.000 4.000 5.000 3.000\n"))
    path = f"PG:dbname={postgres.DATABASE} host={server.env['PGHOST']} user={postgres.USER} schemas=rpstore"
    _, text, _ = plan.script_of(path, plan.Options(layer="lot", bare=True, origin=[412000, 5765000]))
    [line] = [line for line in text.splitlines() if line.startswith("register ")]
    numbers = line.removeprefix("register a prism 0.000 3.000 4 ").split(" ")
    assert set(zip(numbers[::2], numbers[1::2])) == {("0.000", "0.000"), ("4.000", "0.000"), ("4.000", "5.000"), ("0.000", "5.000")}


def test_the_lines_of_ogr2ogr(server, store, root, tmp_path):
    """Those of docs/plans.md that take lots and faces into PostGIS."""
    if not shutil.which("ogr2ogr"):
        pytest.skip("gdal-bin is not there")
    seen = lots.load((root / "examples/block.rp").read_bytes(), lots.Options(store=PROGRAM))
    for name, made in (("lots", gis.footprints(seen)), ("faces", gis.faces(seen))):
        (tmp_path / f"{name}.geojson").write_text(json.dumps(made))
    lines = re.findall("`(ogr2ogr -f PostgreSQL .*?)`", (root / "docs/plans.md").read_text())
    assert len(lines) == 2
    for line in lines:
        subprocess.run(shlex.split(line), cwd=tmp_path, env=server.env, check=True)
    assert server.rows("SELECT count(*) FROM lots") == [("40",)]
    assert server.rows("SELECT GeometryType(wkb_geometry), max(ST_NDims(wkb_geometry)) FROM faces GROUP BY 1") == [("MULTIPOLYGON", "3")]
