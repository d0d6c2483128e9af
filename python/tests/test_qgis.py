"""The plugin of QGIS, from its zip file: by qgis_process without a screen, and by what a session of QGIS has in its map."""
import json
import os
import shutil
import subprocess
import zipfile

import pytest
from conftest import PROGRAM, ROOT

# Debian's script `qgis_process` gives the program a word that it does not know.
PROCESS = shutil.which("qgis_process.bin") or shutil.which("qgis_process")
# The Python of the system, of which Debian's PyQGIS is.
PYTHON = "/usr/bin/python3"
PLACE = "# Grid: EPSG:25832. Local origin: E 412000, N 5765000.\n"
FLATS = f"""rp 2
{PLACE}register west box 0.000 0.000 0.000 5.000 8.000 3.000
register east box 4.900 0.000 0.000 10.000 8.000 3.000
"""
BOOK = f"""rp 2
{PLACE}# day 2024-03-01 deed 1
register a box 0.000 0.000 0.000 10.000 10.000 3.000
register b box 10.000 0.000 0.000 20.000 10.000 6.000
# day 2025-06-12 deed 2
cut a half 1 0 0 -4000 a-east a-west
# day 2026-01-07 deed 3
layer rights
register way box 0.000 4.000 0.000 25.000 5.000 2.000
"""


@pytest.fixture(scope="module")
def home(tmp_path_factory):
    """The folder of a user into whose plugins the zip file is unpacked, as the plugin manager does."""
    if not PROCESS:
        pytest.skip("qgis is not there")
    made = tmp_path_factory.mktemp("home")
    subprocess.run([ROOT / "tools/qgis-zip", made / "plugin.zip"], check=True)
    with zipfile.ZipFile(made / "plugin.zip") as archive:
        archive.extractall(plugins_of(made))
    return made


def profile_of(home):
    return home / ".local/share/QGIS/QGIS3/profiles/default"


def plugins_of(home):
    return profile_of(home) / "python/plugins"


def environment(home, **more):
    room = home / "run"
    room.mkdir(mode=0o700, exist_ok=True)
    return {**os.environ, "QT_QPA_PLATFORM": "offscreen", "HOME": str(home), "XDG_RUNTIME_DIR": str(room), "PYTHONDONTWRITEBYTECODE": "1", **more}


@pytest.fixture(scope="module")
def run(store, home):
    """Runs an algorithm of the plugin, and gives what it says and its status."""
    env = environment(home, RPSTORE_GIS=str(ROOT / "rpstore-gis"), RPSTORE=PROGRAM)
    subprocess.run([PROCESS, "plugins", "enable", "rpstore"], env=env, stdout=subprocess.DEVNULL, stderr=subprocess.DEVNULL)

    def of(name, out, env=env, **given):
        words = [f"{key}={text}" for key, text in given.items()] + [f"OUTPUT={out}"]
        done = subprocess.run([PROCESS, "run", f"rpstore:{name}", "--", *words], env=env, stdout=subprocess.PIPE, stderr=subprocess.STDOUT)
        return done.returncode, done.stdout.decode()

    return of


@pytest.fixture
def flats(tmp_path):
    path = tmp_path / "flats.rp"
    path.write_text(FLATS)
    return path


@pytest.fixture
def book(tmp_path):
    path = tmp_path / "book.rp"
    path.write_text(BOOK)
    return path


@pytest.fixture
def garage(tmp_path):
    """A plan with a polygon that reaches 1 m into west and 1.1 m into east."""
    path = tmp_path / "garage.geojson"
    ring = [[412000 + x, 5765000 + y] for x, y in ((4, 1), (6, 1), (6, 2), (4, 2), (4, 1))]
    crs = {"type": "name", "properties": {"name": "urn:ogc:def:crs:EPSG::25832"}}
    feature = {"type": "Feature", "properties": {"deep": 1}, "geometry": {"type": "Polygon", "coordinates": [ring]}}
    path.write_text(json.dumps({"type": "FeatureCollection", "crs": crs, "features": [feature]}))
    return path


def features(path):
    return json.loads(path.read_text())["features"]


def test_a_plan_becomes_lots_again(run, tmp_path):
    script, lots = tmp_path / "plan.rp", tmp_path / "lots.geojson"
    status, said = run("register", script, PLAN=ROOT / "examples/plan.geojson", ID="parcel", PREFIX="n")
    assert status == 0, said
    assert script.read_text().count("\nregister n") == 3
    assert run("lots", lots, SCRIPT=script, FORM=0)[0] == 0
    assert [each["properties"]["id"] for each in features(lots)] == ["n123_4", "n123_5", "n124"] and "25832" in lots.read_text()
    assert run("lots", lots, SCRIPT=script, FORM=1, ASOF=4)[0] == 0
    [first] = features(lots)
    assert first["properties"]["volume"] > 0 and {point[2] for face in first["geometry"]["coordinates"] for point in face[0]} == {-3, 12.5}


def test_conflicts(run, flats, tmp_path):
    status, said = run("conflicts", tmp_path / "conflicts.geojson", SCRIPT=flats, FORM=0)
    assert status == 0 and "1 refused line; report accepted" in said, said
    [each] = features(tmp_path / "conflicts.geojson")
    assert each["properties"]["others"] == "west" and each["properties"]["volume"] == pytest.approx(2.4)
    assert each["geometry"]["coordinates"] == pytest.approx([412004.95, 5765004, 1.5])


def test_what_a_region_meets(run, flats, tmp_path):
    status, said = run("meets", tmp_path / "meets.geojson", SCRIPT=flats, REGION="box 4.000 0.000 0.000 6.000 1.000 1.000", FORM=1)
    assert status == 0, said
    [each] = features(tmp_path / "meets.geojson")
    assert each["properties"]["volume"] == pytest.approx(1) and len(each["geometry"]["coordinates"]) == 6
    assert {point[2] for polygon in each["geometry"]["coordinates"] for point in polygon[0]} == {0, 1}


def test_what_drawn_polygons_meet(run, book, garage, tmp_path):
    """The polygon is 2 m wide and 1 m deep, in a-east, and 1.5 m high, of which the way has nothing."""
    status, said = run("meetsdrawn", tmp_path / "met.geojson", SCRIPT=book, DRAWN=garage, FLOOR="deep", TOP="2.5", FORM=0)
    assert status == 0 and "1 lot shares a point with the region; report accepted" in said, said
    [each] = features(tmp_path / "met.geojson")
    assert each["properties"]["id"] == "a-east" and each["properties"]["volume"] == pytest.approx(2 * 1 * 1.5)


def test_all_lots_that_ever_were(run, book, tmp_path):
    status, said = run("lots", tmp_path / "lots.gpkg", SCRIPT=book, FORM=0, TIME="true")
    assert status == 0, said
    fiona = pytest.importorskip("fiona", reason="python3-fiona is not there")
    with fiona.open(tmp_path / "lots.gpkg") as source:
        assert source.schema["properties"]["begins"] == source.schema["properties"]["ends"] == "date"
        found = {each["properties"]["id"]: (each["properties"]["begins"], each["properties"]["ends"]) for each in source}
    assert found == {"a": ("2024-03-01", "2025-06-12"), "b": ("2024-03-01", None), "a-east": ("2025-06-12", None), "a-west": ("2025-06-12", None),
                     "way": ("2026-01-07", None)}


def test_what_is_refused_is_said(run, flats, tmp_path):
    status, said = run("meets", tmp_path / "none.geojson", SCRIPT=flats, REGION="tunnel")
    assert status != 0 and 'the region is no expression: word 1, "tunnel"' in said and not (tmp_path / "none.geojson").exists()
    status, said = run("register", tmp_path / "none.rp", PLAN=ROOT / "examples/plan.geojson", ID="parcel")
    assert status != 0 and "nothing was written: 3 of 3 cannot be registered: correct them in the plan" in said and not (tmp_path / "none.rp").exists()
    status, said = run("lots", tmp_path / "none.geojson", SCRIPT=flats, FORM=2, TIME="true")
    assert status != 0 and "sections are of live lots alone" in said and not (tmp_path / "none.geojson").exists()


def test_the_program_by_a_setting(run, home, flats, tmp_path):
    """What the options of Processing name goes before the variables."""
    settings = profile_of(home) / "QGIS/QGIS3.ini"
    before = settings.read_text() if settings.exists() else ""
    env = environment(home, RPSTORE_GIS="/nowhere", RPSTORE="/nowhere")
    status, said = run("lots", tmp_path / "lots.geojson", env=env, SCRIPT=flats, FORM=0)
    assert status != 0 and "rpstore-gis cannot be run" in said
    settings.write_text(f"{before}\n[Processing]\nConfiguration\\RPSTORE_GIS={ROOT / 'rpstore-gis'}\nConfiguration\\RPSTORE={PROGRAM}\n")
    try:
        status, said = run("lots", tmp_path / "lots.geojson", env=env, SCRIPT=flats, FORM=0)
    finally:
        settings.write_text(before)
    assert status == 0 and len(features(tmp_path / "lots.geojson")) == 1, said


def test_the_help(run, home):
    done = subprocess.run([PROCESS, "help", "rpstore:meetsdrawn"], env=environment(home), stdout=subprocess.PIPE, stderr=subprocess.DEVNULL)
    told = done.stdout.decode()
    assert "DRAWN: Polygons\n\tThe region in plan, in any grid: all polygons of a layer together, or the selected ones." in told
    assert "<b>Upper height: a number or a field</b>: In metres above the zero of the heights of the script." in told


# ---- what QGIS has in its map

@pytest.fixture
def session(store, home, tmp_path):
    """Runs tasks in a session of QGIS, and gives their answers."""
    if not os.access(PYTHON, os.X_OK) or subprocess.run([PYTHON, "-c", "import qgis._3d"], stderr=subprocess.DEVNULL).returncode:
        pytest.skip("python3-qgis is not there")

    def of(*tasks):
        env = environment(home, RPSTORE_GIS=str(ROOT / "rpstore-gis"), RPSTORE=PROGRAM)
        done = subprocess.run([PYTHON, ROOT / "python/tests/qgis_session.py", plugins_of(home)], env=env, input=json.dumps(tasks, default=str),
                              stdout=subprocess.PIPE, stderr=subprocess.PIPE, text=True)
        found = [line for line in done.stdout.splitlines() if line.startswith("ANSWERS ")]
        assert done.returncode == 0 and found, done.stderr
        return json.loads(found[0].split(" ", 1)[1])

    return of


def shows(name, tmp_path, **given):
    return {"do": "show", "run": name, "given": given, "picture": tmp_path / f"{name}-{given.get('FORM')}.png"}


def test_the_styles(session, book, flats, tmp_path):
    lots, faces, points, met = session(
        shows("lots", tmp_path, SCRIPT=book, FORM=0), shows("lots", tmp_path, SCRIPT=book, FORM=1), shows("conflicts", tmp_path, SCRIPT=flats, FORM=0),
        shows("meets", tmp_path, SCRIPT=book, FORM=0, REGION="box 0.000 0.000 0.000 20.000 10.000 1.000"))
    assert lots["legend"] == faces["legend"] == ["base", "rights"] and lots["label"] == "id" and lots["order"]
    assert lots["in_3d"]["extrusionHeight"] == 'try("height" - "base", 0)' and lots["in_3d"]["height"] == 'try("base", "height")'
    assert "extrusionHeight" not in faces["in_3d"] and faces["in_3d"]["clamping"] == "absolute"
    assert points["in_3d"]["kind"] == "point" and met["in_3d"]["diffuse"] == "'#e08a2c'"
    assert not any(each["is_temporal"] for each in (lots, faces, points, met))
    # A picture of the map has the paper, two layers, edges and letters.
    assert all(each["colours"] > 3 for each in (lots, faces, met)) and points["colours"] > 1


def test_days(session, book, flats, tmp_path):
    """The lots that the temporal controller shows: from the day on at which each begins, up to the day before it ends."""
    days = {"2024-02-29": [], "2024-03-01": ["a", "b"], "2025-06-11": ["a", "b"], "2025-06-12": ["a-east", "a-west", "b"],
            "2026-01-06": ["a-east", "a-west", "b"], "2026-01-07": ["a-east", "a-west", "b", "way"]}
    dated, plain = session({**shows("lots", tmp_path, SCRIPT=book, FORM=0, TIME=True), "days": [*days]}, shows("lots", tmp_path, SCRIPT=flats, FORM=0, TIME=True))
    assert dated["is_temporal"] and dated["days"] == days and dated["count"] == 5
    assert plain["types"]["begins"] == "date" and not plain["is_temporal"]


def test_the_button(session):
    """It draws, and then opens the dialog with what was drawn as a layer. When the plugin ends nothing of it is left."""
    [found] = session({"do": "press", "clicks": [[10, 10], [60, 10], [10, 70]]})
    assert found == {"shown": ["toolbar", "rpstore"], "has_icon": True, "dialog": "rpstore:meetsdrawn", "layer": ["drawn region", 1, "EPSG:25832"], "left": []}


def test_a_region_drawn_on_the_map(session, book):
    """Four clicks make a square; a fifth corner is taken away by the backspace key."""
    geometry = pytest.importorskip("shapely.geometry", reason="python3-shapely is not there")
    [found] = session({"do": "draw", "extent": [412000, 5765000, 412020, 5765020], "clicks": [[50, 350], [250, 350], [250, 250], [50, 220], [390, 10]],
                       "given": {"SCRIPT": book, "FORM": 0, "FLOOR": "1", "TOP": "4"}})
    region = geometry.Polygon(found["drawn"])
    assert len(found["drawn"]) == 5 and region.area > 30 and found["corners"] == 0
    lots = {"a-west": (0, 0, 4, 10, 2), "a-east": (4, 0, 10, 10, 2), "b": (10, 0, 20, 10, 3), "way": (0, 4, 25, 5, 1)}
    wanted = {name: region.intersection(geometry.box(412000 + x, 5765000 + y, 412000 + u, 5765000 + v)).area * height
              for name, (x, y, u, v, height) in lots.items()}
    assert dict(found["met"]) == pytest.approx({name: volume for name, volume in wanted.items() if volume}, abs=0.02)
