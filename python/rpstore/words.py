"""The words of the command line, and their options."""
from __future__ import annotations

import argparse
import re
from decimal import Decimal, InvalidOperation
from importlib import metadata
from typing import TYPE_CHECKING, Iterable, NoReturn, Optional, Sequence, Union

from . import book, conflicts, crosses_forms, hints, meets_forms, picture, place

if TYPE_CHECKING:
    Words = argparse._SubParsersAction["Parser"]

# What argparse says of a first word that it does not know.
CHOICE = re.compile(r"argument WORD: invalid choice: (?P<quote>['\"])(?P<word>.*?)(?P=quote).*choose from (?P<known>.*)\)", re.S)


def version() -> str:
    """Returns the version of the installed package. The commands of a checkout and of a release answer --version themselves."""
    try:
        return metadata.version("rpstore-gis")
    except metadata.PackageNotFoundError:
        return "unknown: not installed as a package"


def decimal(word: str) -> Decimal:
    """Reads metres to the millimetre."""
    try:
        number = Decimal(word)
    except InvalidOperation:
        raise argparse.ArgumentTypeError(f"{word!a} is no number: write metres as 3.500")
    if not number.is_finite() or abs(number) > 10**9 or number * 1000 % 1:
        raise argparse.ArgumentTypeError(f"{word!a} is out of bounds: write metres up to 1000000000 with at most three digits after the point")
    return number


def millimetres(word: str) -> Decimal:
    """Reads millimetres above 0, to the nanometre, up to a metre."""
    number = Decimal(word) if re.fullmatch(r"[0-9]{1,4}(\.[0-9]{1,6})?", word) else Decimal(0)
    if not 0 < number <= 1000:
        raise argparse.ArgumentTypeError(f"{word!a} is out of bounds: write millimetres above 0 and up to 1000, with at most six digits after the point")
    return number


def width(word: str) -> int:
    """Reads a width in pixels."""
    if not (word.isdigit() and picture.LEAST <= int(word[:9]) <= picture.MOST):
        raise argparse.ArgumentTypeError(f"{word!a} is no width: write pixels from {picture.LEAST} to {picture.MOST}")
    return int(word)


def line_or_date(word: str) -> Union[int, str]:
    """Reads the number of a line as a report has it, or a date."""
    if book.DATE.fullmatch(word):
        return word
    if not (word.isascii() and word.isdigit() and len(word) < 9):
        raise argparse.ArgumentTypeError(f"{word!a} is no number of a line, and no date: write 117, or 2026-11-30 of a book")
    return int(word)


class Parser(argparse.ArgumentParser):
    """A parser that says in one line what is wrong with the words, and that nothing was written. That of the whole line has the parsers of
    its words as `forms`."""

    forms: dict[str, Parser] = {}

    def refuse(self, said: str) -> NoReturn:
        self.exit(2, f"rpstore-gis: {said} Nothing was read or written.\n")

    def refuse_word(self, word: str, known: Iterable[str]) -> NoReturn:
        """Ends with 2, and names the nearest of the `known` words, if one is near."""
        self.refuse(f"unknown word {word!a}{hints.meant(word, known) or f'; {self.prog} --help lists the words.'}")

    def error(self, message: str) -> NoReturn:
        choice = CHOICE.match(message)
        if choice:
            self.refuse_word(choice["word"], re.findall(r"\w+", choice["known"]))
        if message.endswith("required: WORD"):
            self.refuse(f"no word was given; {self.prog} --help lists the words.")
        self.refuse(f"{message} ({self.prog} --help says more).")


def add(words: Words, word: str, says: str, file: Optional[str] = "?") -> Parser:
    """Adds a `word` with its FILE, which may be left out unless `file` is None, and returns its parser."""
    made = words.add_parser(word, help=says, description=says)
    if file:
        made.add_argument("file", nargs=file, metavar="FILE")
    else:
        made.add_argument("file", metavar="FILE")
    made.add_argument("-o", "--output", metavar="PATH", help="where to write, in the place of standard output")
    return made


def add_store(made: argparse.ArgumentParser) -> None:
    made.add_argument("--store", metavar="PROGRAM", help="the store, in the place of ./rpstore beside this (or RPSTORE)")


def add_place(made: argparse.ArgumentParser) -> None:
    made.add_argument("--origin", nargs=2, type=decimal, metavar=("E", "N"), help="the local origin, in metres of the map; without it the "
                      f"note of the script is read: {place.FORM}")
    made.add_argument("--epsg", type=int, metavar="NUMBER", help="the grid of the map; without it the same note is read")


def add_asof(made: argparse.ArgumentParser) -> None:
    made.add_argument("--asof", type=line_or_date, metavar="LINE", help="of a script: as it was after this line, by its number in a report; of a "
                      "book also after a day, as 2026-11-30, in UTC")


def add_shown(words: Words, word: str, says: str, file: Optional[str] = "?") -> Parser:
    """Adds a `word` that reads what a script or a report shows, and returns its parser."""
    made = add(words, word, says, file)
    add_place(made)
    add_store(made)
    add_asof(made)
    made.add_argument("--unchecked", action="store_true", help="take a report without having the store check it")
    made.add_argument("--names", action="store_true", help="of a script: show the regions that `let` names, too")
    return made


def add_at(made: argparse.ArgumentParser) -> None:
    made.add_argument("--at", type=decimal, action="append", default=[], metavar="HEIGHT", help="of a script: each live lot at this height, in "
                      "metres; may stand several times")


def add_in_time(made: argparse.ArgumentParser) -> None:
    made.add_argument("--time", action="store_true", help="of a script: all lots that ever were, each with the lines and the days at which it came and "
                      "ended")


def add_view(words: Words) -> None:
    made = add_shown(words, "view", "one page that shows lots in a browser")
    made.add_argument("--title", help="the head of the page (the name of the file)")
    made.add_argument("--storey", type=decimal, default=Decimal(2), metavar="METRES", help="lots whose lowest heights are less than this apart are "
                      "of one storey (2)")
    made.add_argument("--time", action="store_true", help="of a script: all lots that ever were, and a slider for the line, or the day")


def add_picture(words: Words) -> None:
    made = add_shown(words, "picture", "a picture in SVG of the `section` lines of a report: the outlines at each height")
    add_at(made)
    made.add_argument("--width", type=width, default=picture.WIDTH, metavar="PIXELS", help=f"the width of the picture ({picture.WIDTH})")


def add_explain(words: Words) -> None:
    made = add_shown(words, "explain", "what is wrong with each refused line: the word, what is due there, or the place on the ground")
    made.add_argument("--geojson", choices=list(conflicts.GEOMETRIES), help="of a script: GeoJSON with a feature for each refused line: a point in what "
                      "is in its way, or that in plan (areas) or with heights (faces)")
    made.add_argument("--all", action="store_true", help="of a script: name all lots that each line overlaps that is refused for it, and not the first "
                      "alone")


def add_on_map(words: Words, word: str, says: str) -> Parser:
    """Adds a `word` that asks questions after a script and may write map coordinates, and returns its parser."""
    made = add(words, word, says, None)
    add_place(made)
    add_store(made)
    add_asof(made)
    return made


def add_meets(words: Words) -> None:
    made = add_on_map(words, "meets", "the live lots of a script that a region meets, what each has of it, and a report that shows that these are all")
    made.add_argument("region", metavar="EXPRESSION", help="the region, as an expression of the language: 'box ..', 'name X', 'lot X'")
    made.add_argument("--drawn", action="store_true", help="EXPRESSION is a file with polygons that GDAL reads: all of them are the region, each between two "
                      "heights")
    made.add_argument("--drawn-layer", metavar="NAME", help="the layer of this file, if it has several")
    made.add_argument("--floor", default="base", metavar="WHAT", help="the lower height of what is drawn: a number for all, or the property with it (base)")
    made.add_argument("--top", default="height", metavar="WHAT", help="the upper height, likewise (height)")
    made.add_argument("--touch", action="store_true", help="with the lots that touch the region and share no point with it")
    made.add_argument("--layer", action="append", default=[], metavar="NAME", help="of this layer alone; may stand several times")
    made.add_argument("--as", dest="form", choices=list(meets_forms.FORMS), default="table", help="what is written: a table; GeoJSON of what is in common, in "
                      "plan (lots) or with heights (faces); CityJSON of it (city); a page with the lots and it (view); the report")


def add_rights(words: Words) -> None:
    made = add_on_map(words, "rights", "the live lots of other layers that lie on a lot, as rights of way, and what each has of it")
    made.add_argument("lot", metavar="ID", help="the lot")
    made.add_argument("--as", dest="form", choices=list(meets_forms.FORMS), default="table", help="what is written, as with `meets`")


def add_crosses(words: Words) -> None:
    made = add_on_map(words, "crosses", "the live lots of a script that a line crosses, in order from its start, with the length in each")
    made.add_argument("points", nargs="+", type=decimal, metavar="NUMBER", help="the points of the line, X Y Z of each in metres from the local origin")
    made.add_argument("--map", action="store_true", help="the points are E N H of each, in metres of the map")
    made.add_argument("--layer", action="append", default=[], metavar="NAME", help="of this layer alone; may stand several times")
    made.add_argument("--as", dest="form", choices=list(crosses_forms.FORMS), default="table", help="what is written: a table; GeoJSON of what each lot "
                      "has of the line (lines); the report")


def add_walls(words: Words) -> None:
    made = add(words, "walls", "what the live lots of a script have in common with those that touch them: walls with areas, edges with lengths, corners")
    add_place(made)
    add_store(made)
    add_asof(made)
    made.add_argument("--lot", action="append", default=[], metavar="ID", help="of this lot alone; may stand several times")
    made.add_argument("--geojson", action="store_true", help="GeoJSON: each wall as a polygon, each edge as a line, each corner as a point, with heights")


def add_extract(words: Words) -> None:
    made = add(words, "extract", "the lines of a script on which some lots rest, under their own numbers; behind -o PATH.rp also its report, "
               "PATH.report", None)
    add_store(made)
    made.add_argument("ids", nargs="+", metavar="ID", help="the lots")
    made.add_argument("--neighbours", action="store_true", help="those of the lots, too")


def add_plan(words: Words) -> None:
    made = add(words, "plan", "a script that registers the polygons of a plan, in any format that GDAL reads")
    add_store(made)
    made.add_argument("--layer", help="the layer of the plan, where it has several")
    made.add_argument("--id", default="id", metavar="NAME", help="the property with the id (id)")
    made.add_argument("--number", action="store_true", help="take the place in the plan, 1, 2, .., for the id; wants --prefix")
    made.add_argument("--prefix", default="", metavar="LETTERS", help="put this before each id, and _ in the place of each / in it")
    made.add_argument("--floor", default="base", metavar="WHAT", help="the lower height: a number for all, or the property with it (base)")
    made.add_argument("--top", default="height", metavar="WHAT", help="the upper height, likewise (height)")
    made.add_argument("--storeys", metavar="WHAT", help="how many storeys, likewise: a lot for each, ID.1, ID.2, .., from the floor upwards; "
                      "--top is not read then")
    made.add_argument("--storey-height", default="3", metavar="WHAT", help="how high each storey is, likewise (3)")
    made.add_argument("--section", type=decimal, action="append", default=[], metavar="HEIGHT", help="write a line `section` behind the lots "
                      "for each that reaches over this height; may stand several times")
    made.add_argument("--bare", action="store_true", help="write no note with the attributes of each feature behind its lines")
    made.add_argument("--from", dest="source", metavar="GRID", help="the grid of the plan, where its file does not say or says it wrongly; "
                      "`metres` for metres of no grid")
    made.add_argument("--to", metavar="GRID", help="the grid of the register, as EPSG:25832; needed where the plan has degrees or feet")
    made.add_argument("--origin", nargs=2, type=decimal, metavar=("E", "N"), help="the local origin; without it one is chosen: 0 0 if all "
                      "points are near enough, else whole kilometres near the middle")
    made.add_argument("--leave-out", action="store_true", help="leave out the features that cannot be registered, each with a note")


def add_solids(words: Words) -> None:
    made = add(words, "solids", "a script that registers the solids of a model: of CityJSON, or the spaces of IFC")
    made.add_argument("--id", default="id", metavar="NAME", help="the property with the id; without it `id`, or else the name of the feature in its file")
    made.add_argument("--number", action="store_true", help="take the place in the model, 1, 2, .., for the id; wants --prefix")
    made.add_argument("--prefix", default="", metavar="LETTERS", help="put this before each id, and _ in the place of each / in it")
    made.add_argument("--layer", default="layer", metavar="NAME", help="the property with the layer of the lot (layer); without it the layer is base")
    made.add_argument("--kind", action="append", default=[], metavar="TYPE", help="features of this type alone, as BuildingPart; may stand several times")
    made.add_argument("--lod", metavar="LEVEL", help="the level of detail, as 2.2 (the finest one that has solids)")
    made.add_argument("--planar", type=millimetres, metavar="MM", help="how far corners may be moved, in millimetres, so that each face gets a plane with "
                      "whole numbers; without it no corner is moved")
    made.add_argument("--section", type=decimal, action="append", default=[], metavar="HEIGHT", help="write a line `section` after the lots for each that "
                      "reaches over this height; may stand several times")
    made.add_argument("--bare", action="store_true", help="write no note with the attributes of each feature after its lines")
    made.add_argument("--from", dest="source", metavar="GRID", help="the grid of the model, if its file does not say or says it wrongly; `metres` for "
                      "metres of no grid")
    made.add_argument("--origin", nargs=2, type=decimal, metavar=("E", "N"), help="the local origin; without it that of the model if it has one, else one "
                      "is chosen as for a plan")
    made.add_argument("--leave-out", action="store_true", help="leave out the features that cannot be registered, each with a note")


def parser(says: str) -> Parser:
    """Returns the parser of the command line, whose help begins with what it `says`."""
    made = Parser(prog="rpstore-gis", description=says, formatter_class=argparse.RawDescriptionHelpFormatter)
    made.add_argument("--version", action="version", version=f"rpstore-gis {version()}", help="show the version of this package")
    words = made.add_subparsers(dest="word", required=True, metavar="WORD")
    add_view(words)
    add_picture(words)
    add_shown(words, "measures", "a table of areas and volumes, of what `show` and `section` lines show")
    add_at(add_shown(words, "sections", "GeoJSON of the `section` lines of a report: one area for each, with lot, height and area"))
    add_in_time(add_shown(words, "lots", "GeoJSON of what each lot covers in plan, with its heights, area and volume"))
    add_in_time(add_shown(words, "faces", "GeoJSON of the boundary of each lot, as polygons with heights"))
    add_in_time(add_shown(words, "postgis", "SQL that puts the lots into PostGIS, in plan and as solids"))
    add_shown(words, "city", "CityJSON 2.0 of the lots, as solids")
    add_explain(words)
    add_meets(words)
    add_rights(words)
    add_crosses(words)
    add_walls(words)
    add_extract(words)
    add_plan(words)
    add_solids(words)
    made.forms = words.choices
    return made


def parse(says: str, line: Optional[Sequence[str]]) -> argparse.Namespace:
    """Reads the words of the command `line`, whose help begins with what it `says`. Ends with 2 if a word is unknown."""
    made = parser(says)
    given, unknown = made.parse_known_args(line)
    if unknown:
        form = made.forms[given.word]
        form.refuse_word(unknown[0], re.findall("--[a-z-]+", form.format_usage()))
    return given
