"""Words over a book, with the program that keeps books."""
import json
import os
import sqlite3
import subprocess

import pytest
from conftest import PROGRAM, ROOT
from rpstore import Fault, __main__, book

KEEPER = os.environ.get("RPSTORE_BOOK", str(ROOT / "crates/rp_book_cli/out/rp_book_cli"))
WEST = "rp 2\nregister west box 0.000 0.000 0.000 4.000 5.000 3.000\n"
EAST = "register east box 4.000 0.000 0.000 9.000 5.000 3.000\n"


@pytest.fixture
def town(tmp_path, monkeypatch):
    """The path of a book with two acts of one day."""
    if not os.access(KEEPER, os.X_OK):
        pytest.skip(f"the program {KEEPER} is not built")
    monkeypatch.setenv("RPSTORE", PROGRAM)
    monkeypatch.setenv("RPSTORE_BOOK", KEEPER)
    path = str(tmp_path / "town.book")
    subprocess.run([KEEPER, path, "new"], check=True)
    for lines in (WEST, EAST):
        subprocess.run([KEEPER, path, "add", "A. Clerk"], input=lines.encode(), stdout=subprocess.DEVNULL, check=True)
    return path


def lots_told(town, *words):
    """The first column of a table, without its head."""
    assert __main__.main([*words, "-o", f"{town}.csv"]) == 0
    with open(f"{town}.csv", encoding="utf-8") as file:
        return [line.partition(",")[0] for line in file][1:]


def test_a_book_is_read_as_its_script(town):
    assert book.script(town, "") == (WEST + EAST).encode()
    assert sorted(lots_told(town, "measures", town)) == ["east", "west"]
    assert lots_told(town, "walls", town) == ["west"]


def test_a_date_is_the_last_line_of_the_book_on_it(town, capsys):
    assert book.last_line(town, "9999-12-31", "") == 2 and book.last_line(town, "2000-01-01", "") == 0
    assert sorted(lots_told(town, "measures", town, "--asof", "9999-12-31")) == ["east", "west"]
    assert lots_told(town, "measures", town, "--asof", "1") == ["west"]
    # Before its first line a book has no lot.
    assert __main__.main(["measures", town, "--asof", "2000-01-01"]) == 1
    assert "after the script there is no lot" in capsys.readouterr().err


def test_lots_of_a_book_have_the_days_of_their_acts(town):
    with sqlite3.connect(town) as database:
        wanted = [(first - 1, added[:10]) for first, added in database.execute("SELECT first, added FROM entry")]
    database.close()
    assert book.days(town) == wanted and wanted[-1][0] == 1
    assert __main__.main(["lots", town, "--time", "-o", f"{town}.json"]) == 0
    with open(f"{town}.json", encoding="utf-8") as file:
        found = {each["properties"]["id"]: each["properties"]["begins"] for each in json.load(file)["features"]}
    assert found == {lot: [day for before, day in wanted if before < line][-1] for lot, line in (("west", 1), ("east", 2))}


def test_days_are_read_of_a_copy(town, tmp_path):
    before = {path.name: path.read_bytes() for path in tmp_path.iterdir()}
    assert len(book.days(town)) >= 2 and {path.name: path.read_bytes() for path in tmp_path.iterdir()} == before
    with pytest.raises(Fault, match="the days of the book .* were not read: no such table"):
        book.days(str(tmp_path / "none"))


def test_what_is_no_book_is_named(town, tmp_path, capsys, monkeypatch):
    plain = tmp_path / "plain.rp"
    plain.write_text(WEST)
    assert __main__.main(["measures", str(plain), "--asof", "2026-01-01"]) == 2
    assert "plain.rp is none: give the number of a line" in capsys.readouterr().err
    other = tmp_path / "other.db"
    other.write_bytes(book.MAGIC + bytes(4096))
    assert __main__.main(["view", str(other)]) == 3
    assert "was not read, and nothing was written: rpstore-book: the file is a database that cannot be read" in capsys.readouterr().err
    monkeypatch.setenv("RPSTORE_BOOK", str(tmp_path / "none"))
    with pytest.raises(Fault, match="cannot be run"):
        book.script(town, "")
