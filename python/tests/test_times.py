"""The lots of a script at every line."""
import io
import json
import random

import browsing
import pytest
from conftest import PROGRAM
from rpstore import gis, lots, measures, report, script, times, view
from test_view import data_of
from test_words import ran

BOOK = """rp 2
# day 2024-03-01 deed 1
register a box 0.000 0.000 0.000 10.000 10.000 3.000
register b box 10.000 0.000 0.000 20.000 10.000 3.000
# day 2025-06-12 deed 2
register b-2 box 9.000 0.000 0.000 20.000 10.000 3.000
cut a half 1 0 0 -4000 a-east a-west
at 1.000 1.000 1.000 1
# day 2026-01-07 deed 3
consolidate c 2 a-east b
layer rights
register way box 0.000 4.000 0.000 20.000 5.000 2.000
retire a-west
"""


@pytest.fixture
def history(store):
    return lambda text: times.times(script.script_of(text.encode()), lots.Place(), PROGRAM)


def test_births_and_ends(history):
    found = history(BOOK)
    assert {body.label: (body.layer, body.born, body.ended, body.origins) for body in found.seen.bodies} == {
        "a": ("base", 2, 6, ()), "a-east": ("base", 6, 9, ("a",)), "b": ("base", 3, 9, ()), "a-west": ("base", 6, 12, ("a",)),
        "c": ("base", 9, None, ("a-east", "b")), "way": ("rights", 11, None, ())}
    assert (found.last, found.days, found.seen.refused, found.seen.check) == (12, [(1, "2024-03-01"), (4, "2025-06-12"), (8, "2026-01-07")], 1, "accepted")


def drawn(rng):
    """A script of lots that are cut, joined and retired."""
    live, lines = [], []
    for number in range(40):
        word = rng.choice(["register", "register", "cut", "consolidate", "retire", "at", "# a note", ""])
        if word == "register":
            x, y = rng.randint(0, 5) * 10, rng.randint(0, 5) * 10
            lines.append(f"register n{number} box {x} {y} 0 {x + 10} {y + 10} {rng.randint(1, 9)}")
            live.append(f"n{number}")
        elif word == "cut" and live:
            lot = live.pop(rng.randrange(len(live)))
            lines.append(f"cut {lot} half 1 0 0 -{rng.randint(0, 50)} n{number}e n{number}w")
            live += [f"n{number}e", f"n{number}w"]
        elif word == "consolidate" and len(live) > 1:
            one, two = rng.sample(live, 2)
            lines.append(f"consolidate n{number} 2 {one} {two}")
            live.append(f"n{number}")
        elif word == "retire" and live:
            lines.append(f"retire {live.pop(rng.randrange(len(live)))}")
        else:
            lines.append("at 1 1 1 1" if word == "at" else word if word in ("# a note", "") else "list")
    return "\n".join(lines) + "\n"


@pytest.mark.parametrize("seed", range(8))
def test_each_line_against_the_front_of_the_script(history, store, seed):
    text = drawn(random.Random(seed))
    found = history(text)
    for line in range(1, found.last + 1):
        front = "\n".join(text.split("\n")[:line]) + "\nlist\n"
        told = list(report.read(io.BytesIO(store(front, "run", "brief"))))[-1].verdict
        live = {body.label: body for body in found.seen.bodies if body.born <= line and not (body.ended is not None and body.ended <= line)}
        assert {lot.id for lot in told if lot.ended is None} == set(live)
        assert {lot.id: (lot.born, lot.origins) for lot in told if lot.ended is None} == {lot: (body.born, body.origins) for lot, body in live.items()}


def test_children_have_the_volume_of_their_lot(history):
    bodies = {body.label: body for body in history(BOOK).seen.bodies}
    assert bodies["a"].volume == bodies["a-east"].volume + bodies["a-west"].volume
    assert bodies["c"].volume == bodies["a-east"].volume + bodies["b"].volume


def test_as_of_a_line(seen):
    assert [row[0] for row in measures.rows(seen(BOOK, asof=3))] == ["a", "b"]
    assert [row[0] for row in measures.rows(seen(BOOK, asof=8))] == ["b", "a-east", "a-west"]
    assert [row[0] for row in measures.rows(seen(BOOK))] == ["c", "way"]


def test_days_of_a_book(store):
    """Without notes that have days the lines have those on which they were added."""
    added = [(-1, "2024-05-01"), (4, "2025-06-30"), (9, "2026-02-01")]
    plain = script.script_of(BOOK.replace("# day", "# on").encode())
    assert times.times(plain, lots.Place(), PROGRAM, added).moments == [
        (2, "2024-05-01"), (3, "2024-05-01"), (6, "2025-06-30"), (9, "2025-06-30"), (11, "2026-02-01"), (12, "2026-02-01")]
    assert times.times(script.script_of(BOOK.encode()), lots.Place(), PROGRAM, added).day_of(12) == "2026-01-07"


def test_the_words(store):
    assert ran(["measures", "--asof", "3"], BOOK.encode())[1].count(b"\n") == 3
    assert ran(["measures", "--asof", "99"], BOOK.encode()) == (2, b"", "rpstore-gis: the script has 12 lines, and no line 99: give --asof a number up to 12. "
                                                            "Nothing was written.\n")
    assert ran(["lots", "--asof", "1"], store(BOOK))[::2] == (
        2, "rpstore-gis: --asof needs a script, and this is a report: name the script that was run. Nothing was written.\n")
    assert ran(["explain", "--asof", "4"], BOOK.encode())[:2] == (0, b"") and ran(["explain", "--asof", "5"], BOOK.encode())[0] == 1
    page = ran(["view", "--time"], BOOK.encode())[1].decode()
    assert data_of(page)["moments"] == [[2, "2024-03-01"], [3, "2024-03-01"], [6, "2025-06-12"], [9, "2026-01-07"], [11, "2026-01-07"], [12, "2026-01-07"]]
    assert not data_of(ran(["view"], BOOK.encode())[1].decode())["moments"]
    assert "6 lots, 4 of which ended, 1 refused line, report accepted." in data_of(page)["about"]


def test_lots_with_their_days(history):
    """A lot has the days of the notes before the lines at which it came and ended."""
    found = gis.lifetimes(history(BOOK), gis.covered)["features"]
    days = [(each["properties"]["id"], *(each["properties"][name] for name in ("ended", "begins", "ends"))) for each in found]
    assert days == [("a", 6, "2024-03-01", "2025-06-12"), ("b", 9, "2024-03-01", "2026-01-07"), ("a-east", 9, "2025-06-12", "2026-01-07"),
                    ("a-west", 12, "2025-06-12", "2026-01-07"), ("c", None, "2026-01-07", None), ("way", None, "2026-01-07", None)]
    undated = gis.lifetimes(history("register a box 0 0 0 10 10 3\n"), gis.boundary)["features"]
    assert [(each["properties"]["begins"], len(each["geometry"]["coordinates"])) for each in undated] == [(None, 6)]


def test_the_words_for_a_gis(store):
    assert json.loads(ran(["lots", "--time"], BOOK.encode())[1])["features"][0]["properties"]["ends"] == "2025-06-12"
    told = ran(["postgis", "--time"], BOOK.encode())[1].decode()
    assert "VALUES ('a-east', 'base', 6, 9, '2025-06-12', '2026-01-07', ARRAY['a']::text[], 0.000000, 3.000000, 60.000000, 180.000000000," in told
    for word in ("lots", "faces", "postgis"):
        assert ran([word, "--time"], store(BOOK))[::2] == (
            2, f"rpstore-gis: {word} --time needs a script, and this is a report: name the script that was run. Nothing was written.\n")


def test_the_slider(history, browser, tmp_path):
    found = history(BOOK)
    path = tmp_path / "book.html"
    path.write_text(view.page(found.seen, "A book", moments=found.moments), encoding="utf-8")
    live = "return lots.filter(isShown).map(lot => lot.name).sort().join()"
    browsing.opened(browser, path)
    assert browser.execute_script(live) == "c,way" and browser.execute_script("return $('timeValue').textContent") == "12, 2026-01-07"
    for line, wanted in ((2, "a"), (3, "a,b"), (6, "a-east,a-west,b"), (9, "a-west,c"), (11, "a-west,c,way")):
        browsing.opened(browser, path, f"line={line}")
        assert browser.execute_script(live) == wanted and browser.execute_script("return state.line") == line
        layers, storeys = (browser.execute_script(f"return [...document.querySelectorAll('#{kind} .count')].map(it => +it.textContent)") for kind in ("layers", "storeys"))
        assert sum(layers) == sum(storeys) == wanted.count(",") + 1 and layers == [sum(name != "way" for name in wanted.split(",")), wanted.count("way")]
        assert browser.execute_script("return $('liveCount').textContent") == f"{sum(layers)} of 6 live"
    browser.execute_script("$('earlier').click()")
    browsing.rested(browser)
    assert browser.execute_script(live) == "a-west,c" and "line=9" in browser.current_url
    # A lot that is found is shown as it was.
    browser.execute_script("find('a')")
    browsing.rested(browser)
    assert browser.execute_script(live) == "a" and "ended in line" in browser.execute_script("return $('card').textContent")
    browsing.opened(browser, path)
    assert browser.execute_script("return getComputedStyle($('times')).display") != "none"
