"""What some lots of a long script rest on: the answers are those of the whole script, and the store accepts the report."""
import random
import re

import pytest
from conftest import PROGRAM
from rpstore import Fault, extract
from rpstore.notes import notes_on
from test_words import ran


@pytest.fixture
def extracted(store):
    def of(script, *ids, **given):
        return extract.extract(script.encode(), list(ids), PROGRAM, **given)

    return of


BOOK = """rp 2
# Grid: EPSG:25832. Local origin: E 412000, N 5765000.
# Coordinates are metres from the local origin.

# Two fields.
register north box 0.000 10.000 0.000 20.000 20.000 5.000
# {"owner": "A"}
register south box 0.000 0.000 0.000 20.000 10.000 5.000
# {"owner": "B"}
let line = half 1 0 0 -10000
layer rights
# A way over both.
register way box 9.000 0.000 0.000 11.000 20.000 3.000
layer base
register far box 100.000 0.000 0.000 120.000 10.000 5.000
# The north is cut.
cut north name line north-east north-west
retire far
register south all
list
register far-2 box 100.000 0.000 0.000 120.000 10.000 5.000
"""


def lines_of(script):
    return script.decode().split("\n")


def test_a_lot_with_its_origins(extracted):
    found = extracted(BOOK, "north-west")
    lines, whole = lines_of(found.script), BOOK.split("\n")[:-1]
    kept = {number for number, line in enumerate(lines[: len(whole)]) if line}
    assert all(lines[number] == whole[number] for number in kept)
    assert kept == {0, 1, 2, 4, 5, 6, 9, 15, 16} and (found.kept, found.lines) == (3, 21)
    assert lines[21:23] == ["history north-west", "show lot north-west"] and all(line.startswith("# ") for line in lines[23:-1])
    report = found.report.decode()
    assert "= refused" not in report
    assert "\n= lots 2\n= lot north born 5 ended 16\n= lot north-west born 16 live from north\n" in report


def test_the_layer_of_a_lot(extracted):
    found = lines_of(extracted(BOOK, "way").script)
    assert found[10:13] == ["layer rights", "# A way over both.", "register way box 9.000 0.000 0.000 11.000 20.000 3.000"] and found[13] == ""


DEEDS = """rp 2
# The book of two lots.

# day 2024-03-01 deed 1: two lots
layer base
register n1 box 0.000 0.000 0.000 20.000 20.000 5.000
register n2 box 20.000 0.000 0.000 40.000 20.000 5.000

# day 2024-06-12 deed 2: both are cut
# Both owners were there.
layer ways
cut n1 half 1 0 0 -10000 n1-e n1-w
cut n2 half 1 0 0 -30000 n2-e n2-w
# The third lot was forgotten at first.
layer base

register n3 box 40.000 0.000 0.000 50.000 20.000 5.000
# {"owner": "C"}

# day 2024-07-01 deed 3: n2-w is given up
retire n2-w
"""


# Lots, and the places of the lines that the extract of each keeps behind the head.
@pytest.mark.parametrize("lot, kept", [
    ("n1-w", {3, 4, 5, 8, 9, 11}),
    # The second cut of the deed, and a `layer` line between note and cut.
    ("n2-e", {3, 4, 6, 8, 9, 12}),
    ("n2-w", {3, 4, 6, 8, 9, 12, 19, 20}),
    # A note within a deed hides neither the day nor itself.
    ("n3", {8, 9, 13, 14, 16, 17}),
])
def test_the_note_of_a_deed_is_kept_for_each_of_its_lines(lot, kept, extracted):
    whole = DEEDS.split("\n")[:-1]
    lines = lines_of(extracted(DEEDS, lot).script)[: len(whole)]
    assert {place for place, line in enumerate(lines) if line} == {0, 1} | kept
    assert all(line in ("", wanted) for line, wanted in zip(lines, whole))


def test_lines_before_the_first_day_have_the_nearest_notes():
    lines = b"# head||a|# two|# lines|b||c|# {}|# day 1|d".split(b"|")
    assert [sorted(notes_on(lines, {place})) for place in (2, 5, 7, 10)] == [[0], [3, 4], [3, 4, 8], [9]]


def test_a_lot_that_ended(extracted):
    found = extracted(BOOK, "far")
    lines = lines_of(found.script)
    assert lines[17] == "retire far" and "history far" in lines and "show lot far" not in lines
    # The lot that came in its place wants nothing of it.
    assert "retire far" not in lines_of(extracted(BOOK, "far-2").script)


def test_neighbours(extracted):
    found = extracted(BOOK, "north-west", with_neighbours=True)
    report = found.report.decode()
    assert re.search("> [0-9]+ neighbours north-west\n(?:  .*\n)*= neighbours 2\n= parcel south\n= parcel north-east\n", report)
    assert "who" not in report and "register far" not in report


def test_a_lot_in_the_way_is_ended(extracted):
    """The name keeps the old lot, which is retired before the new one comes in its place."""
    script = "\n".join(["register old box 0 0 0 10 10 10", "let shape = lot old", "retire old", "register other box 20 0 0 30 10 10",
                        "register new name shape", "retire other", "register beside box 10 0 0 20 10 10", ""])
    assert lines_of(extracted(script, "new").script)[:7] == [*script.split("\n")[:3], "", "register new name shape", "", ""]
    told = lines_of(extracted(script, "beside", with_neighbours=True).script)[:7]
    assert told == [*script.split("\n")[:3], "", "register new name shape", "", "register beside box 10 0 0 20 10 10"]


def test_what_there_is_not(extracted):
    with pytest.raises(Fault, match="the script registers no lot nobody"):
        extracted(BOOK, "way", "nobody")


def test_a_lot_of_many(extracted, store):
    """Of 900 lots, of which some are cut and sold, one with its neighbours: the report is small, and says the same."""
    rng = random.Random(5)
    lines = ["rp 2", "# A book."] + [f"register n{x}_{y} box {x}.000 {y}.000 0.000 {x + 1}.000 {y + 1}.000 3.000" for x in range(30) for y in range(30)]
    for deed in range(100):
        x, y = rng.sample(range(30), 2)
        lines += [f"# Deed {deed}.", f"cut n{x}_{y} half 1 0 0 -{x * 1000 + 400} n{x}_{y}-e n{x}_{y}-w"]
    script = "\n".join(lines) + "\n"
    found = extracted(script, "n7_9", with_neighbours=True)
    assert 20 * len(found.report) < len(store(script)) and found.kept < 30
    assert found.script.count(b"\n") > script.count("\n")
    answers = [re.findall("^= parcel (.*)$", text.split(" neighbours n7_9\n")[1], re.M)
               for text in (store(script + "neighbours n7_9\n").decode(), found.report.decode())]
    assert answers[0] == answers[1] and len(answers[0]) >= 8


@pytest.mark.parametrize("name", ["block", "floor", "tower", "resurvey", "history", "lane", "street", "shaft"])
def test_extracts_of_the_examples(name, root, extracted, store):
    """Of some lots that a script registers: their history is the same, and the extract is accepted, which `extract` asks."""
    script = (root / f"examples/{name}.rp").read_text()
    told = store(script + "list\n", "run", "brief").decode()
    ids = re.findall(r"^= lot (\S+) ", told.split("list\n")[-1], re.M)
    for lot in ids[:: len(ids) // 5 + 1]:
        found = extracted(script, lot)
        question = f"history {lot}\n"
        assert store(script + question, "run", "brief").decode().split(question)[-1] in found.report.decode()


def test_both_files_are_written(tmp_path, store):
    book, out = tmp_path / "book.rp", tmp_path / "way.rp"
    book.write_text(BOOK)
    status, _, said = ran(["extract", str(book), "way", "-o", str(out)])
    report = out.with_suffix(".report").read_text()
    assert (status, said) == (0, f"rpstore-gis: 2 of 21 lines; the report has {len(report)} bytes and is accepted\n")
    assert store(out.read_text()).decode() == report and store(report, "check") == b"accepted\n"
    assert ran(["extract", "-", "way"], BOOK.encode())[1] == out.read_bytes()
    assert ran(["extract", str(book), "way", "-o", str(tmp_path / "way.report")])[::2] == (
        2, "rpstore-gis: -o names the script, and its report gets the ending .report. Nothing was written: give -o another ending, as .rp.\n")
    assert ran(["extract", str(book), "nobody"])[::2] == (1, "rpstore-gis: the script registers no lot nobody. Nothing was written: `list` in the script shows "
                                                             "the live lots.\n")
