"""The note that says where a script lies on the map: which spellings are read, which are refused, and who writes it."""
import json
import random
import re
from argparse import Namespace
from decimal import Decimal

import pytest
from conftest import ROOT
from rpstore import Fault, city, gis, place, plan
from test_words import ran

BOX = "register a box 0.000 0.000 0.000 8.000 9.000 3.000"
NOTE = "# Grid: EPSG:25832. Local origin: E 412000, N 5765000."
TOWN = (412000, 5765000, 25832)


def script(*notes):
    return "".join(f"{line}\n" for line in ("rp 2", *notes, BOX))


def read(text, origin=None, epsg=None):
    """The place of a script, as numbers."""
    found = place.place_of(text.encode(), Namespace(origin=origin, epsg=epsg))
    return found.east, found.north, found.epsg


# Notes, and the place that they name.
READ = [
    ([NOTE], TOWN),
    ([f"{NOTE}\r"], TOWN),
    ([NOTE.upper()], TOWN),
    ([NOTE[:-1]], TOWN),
    ([NOTE, "# Ids: n are lots.", BOX.replace("register a", "register b"), NOTE], TOWN),
    (["# Grid: EPSG:25832", "# Local origin: E 412000, N 5765000"], TOWN),
    (["# Local origin: E 412000, N 5765000.", "# Grid: EPSG:25832."], TOWN),
    (["# Local origin: E 412000.000, N 5765000.000. Metres from there, heights as in the plan.", "# Grid: EPSG:25832, projected from WGS 84."], TOWN),
    (["# Local origin: E 412000.000, N 5765000.000. Metres from there.", "# Grid: EPSG:25832, projected from EPSG:4326."], TOWN),
    (["# Local origin: E 412000, N 5765000. Grid: EPSG:25832."], TOWN),
    (["# Unit mm. Local origin: E 412000.000, N 5765000.000, H 0.000.", "# The plan names its grid urn:ogc:def:crs:EPSG::25832."], TOWN),
    (["# Grid: ETRS89 / UTM zone 32N (EPSG:25832); local origin N 5765000 m, E 412000 m"], TOWN),
    (["#EPSG:25832, origin E 412000 N 5765000"], TOWN),
    (["# Grid: EPSG:25832", "# Origin: E 412000, N 5765000"], TOWN),
    (["# Local origin (E, N): E=412000, N=5765000", "# CRS: EPSG 25832"], TOWN),
    (["# Local origin is at easting 412000 and northing 5765000 (EPSG:25832)."], TOWN),
    (["# Local origin: E412000,N5765000"], (412000, 5765000, None)),
    (["# Local origin: E -4.5, N +7.250. 3 lots"], (Decimal("-4.5"), Decimal("7.25"), None)),
    (["# Local origin: E 108550.000, N 4.000. Metres from there."], (108550, 4, None)),
    (["# Local origin: E -1.000, N 0.500."], (-1, Decimal("0.5"), None)),
    (["# Grid: none. Local origin: E 0, N 0."], (0, 0, None)),
    (["# Grid: the plan names none; its numbers are taken as metres."], (0, 0, None)),
    # Of other origins, in prose, and in the attributes of a plan's feature.
    (["# No origin.", "# n7, origin: n2, e5", "# The local origin is a bolt at the church.", "# day 2024-03-01 deed 1: measured in EPSG:31467",
      '# {"source": "Grid: EPSG:31467. Local origin: E 1, N 2."}', "#"], (0, 0, None)),
]


@pytest.mark.parametrize("notes, wanted", READ)
def test_spellings_that_are_read(notes, wanted):
    assert read(script(*notes)) == wanted


# Origins that do not read in exactly one way.
UNREAD = ["E 412,000, N 5,765,000", "E 412 000, N 5 765 000", "E 412\u00a0000, N 5\u00a0765\u00a0000", "E 412'000, N 5'765'000", "E 412\u2019000, N 5\u2019765\u2019000",
          "E 412.000, N 5.765.000", "E 412.000, N 765.000", "E 412000,5, N 5765000,5", "E 412000, N 5 765 000", "E 412000, N 5,765,000", "412000, 5765000",
          "412000 E, 5765000 N", "E 412000,", "X 5765000, Y 412000", "E 4.12e5, N 5765000", "E 412000, E 5765000", "see the plan", "",
          "E 412000, N 5765000; local origin: E 412000, N 5765001"]


@pytest.mark.parametrize("told", UNREAD)
def test_origins_that_are_refused(told):
    for text in (script("", f"# Local origin: {told}"), script("# Grid: EPSG:25832", f"# Local origin: {told}."), script("", f"# Grid: EPSG:25832. Local origin: {told}.")):
        with pytest.raises(place.Unplaced, match="^the note in line 3 of the file names a local origin that does not read in exactly one way. Nothing"):
            read(text)
        assert read(text, origin=[Decimal(1), Decimal(2)], epsg=25832) == (1, 2, 25832)


# Notes, and why they are refused.
REFUSED = [
    (["# Grid: EPSG:25832."], "the note in line 2 of the file names the grid EPSG:25832, and nothing names a local origin."),
    (["", "# EPSG:25832"], "the note in line 3 of the file names the grid EPSG:25832, and nothing names a local origin."),
    (["# Grid: EPSG:25832 or EPSG:31467. Local origin: E 1, N 2."], "the note in line 2 of the file names a grid that does not read in exactly one way."),
    (["# Grid: EPSG:25832. Origin: 412000 5765000"], "the note in line 2 of the file names a local origin that does not read in exactly one way."),
    ([NOTE, BOX, NOTE.replace("412", "413")],
     "the notes in lines 2 and 4 of the file name two local origins, E 412000, N 5765000 and E 413000, N 5765000. Nothing was written. Correct the wrong note"),
    ([NOTE, "# Grid: EPSG:31467."], "the notes in lines 2 and 3 of the file name two grids, EPSG:25832 and EPSG:31467. Nothing was written. Correct the wrong note"),
    (["# Local origin: E 412000, N 5765000, H 40.000."], "the note in line 2 of the file names a local origin with the height 40.000, and heights are not moved."),
]


@pytest.mark.parametrize("notes, said", REFUSED)
def test_notes_that_are_refused(notes, said):
    with pytest.raises(Fault) as found:
        read(script(*notes))
    assert str(found.value).startswith(said) and "Nothing was written. " in str(found.value) and found.value.status == 1


def test_a_long_note_is_prose():
    """So that a line of many kilobytes, as the store allows it, takes no longer than others."""
    assert read(script("# Local origin: E 1, N 2. " + 1000 * "local origin: ", NOTE)) == TOWN


def test_options_take_the_place_of_notes():
    origin = [Decimal(0), Decimal(0)]
    assert read(script("# Grid: EPSG:25832."), origin=origin) == (0, 0, 25832)
    assert read(script(NOTE), epsg=2056) == (412000, 5765000, 2056)
    assert read(script(NOTE, "# Grid: EPSG:31467."), epsg=2056) == (412000, 5765000, 2056)
    with pytest.raises(place.Unplaced, match="^--epsg names the grid EPSG:2056, and nothing names a local origin"):
        read(script(), epsg=2056)


def test_what_is_written_is_read():
    rng = random.Random(3)
    for _ in range(2000):
        east, north = (Decimal(rng.choice([rng.randrange(-10**12, 10**12), rng.randrange(-10**6, 10**6), 1000 * rng.randrange(-999, 999)])) / 1000 for _ in "EN")
        wanted = place.Place(east, north, rng.choice([None, 25832]))
        assert read(script(wanted.note(rng.choice(["none", "without a number"])))) == (east, north, wanted.epsg)


def test_documents_and_examples_teach_the_note_that_is_written():
    """Each note with an origin is spelled as `plan` spells it, but for what follows it."""
    found = []
    for path in [ROOT / "README.md", *ROOT.glob("docs/**/*.md"), *ROOT.glob("examples/*.rp")]:
        for note in re.findall(r"# [^#\n`\\]*[Oo]rigin: E [^\n`\\]*", path.read_text()):
            found.append(path.name)
            where = place.place_of(note.encode(), Namespace(origin=None, epsg=None))
            assert note == where.note(), path
    assert {"book.rp", "gis.md", "gis-reference.md", "plans.md", "qgis.md", "register.md", "solids.md", "survey.md"} == {*found}


def test_the_book_lies_where_its_note_says(root, seen):
    """The lot n5 has a corner 40 m to the east of the origin, at its north."""
    book = (root / "examples/book.rp").read_text()
    lots = {feature["properties"]["id"]: feature for feature in gis.footprints(seen(book))["features"]}
    assert [412040.0, 5765000.0] in lots["n5"]["geometry"]["coordinates"][0][0]
    model = city.model(seen(book))
    assert model["transform"]["translate"] == [412000, 5765000, 0] and model["metadata"]["referenceSystem"].endswith("/25832")
    assert model["metadata"]["geographicalExtent"] == [412000, 5765000, 40, 412055, 5765032, 80]


@pytest.mark.skipif(bool(plan.MISSING), reason="python3-fiona, python3-pyproj or python3-shapely is not there")
def test_plan_writes_what_lots_reads(root, store):
    status, made, _ = ran(["plan", str(root / "examples/plan.geojson"), "--id", "parcel", "--prefix", "n"])
    assert status == 0 and made.split(b"\n")[1].decode() == NOTE
    told = json.loads((root / "examples/plan.geojson").read_text())["features"][0]["geometry"]["coordinates"][0]
    found = json.loads(ran(["lots"], made)[1])
    [ring] = found["features"][0]["geometry"]["coordinates"][0]
    assert {tuple(point) for point in ring} == {tuple(round(number, 3) for number in point) for point in told}


def test_words_that_need_no_map(store):
    bad = script("# Grid: EPSG:25832.", "section lot a 1.000").replace("section lot a 1.000\n" + BOX, BOX + "\nsection lot a 1.000").encode()
    for word in ("lots", "faces", "sections", "city", "view"):
        status, made, said = ran([word], bad)
        assert (status, made) == (1, b"") and said.startswith("rpstore-gis: the note in line 2 of the file names the grid EPSG:25832, and nothing")
    assert ran(["measures"], bad)[::2] == (0, "") and ran(["picture"], bad)[0] == 0
    status, made, said = ran(["explain"], bad + b"register b lot a\n")
    assert status == 1 and b"A point of both is x " in made and b" E 4" not in made
    assert said == ("rpstore-gis: the note in line 2 of the file names the grid EPSG:25832, and nothing names a local origin; so points are told in metres "
                    "from the local origin\n")
