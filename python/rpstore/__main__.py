"""What surrounds the store: looks at its lots, takes them into a GIS, explains refusals, makes scripts of plans.

FILE is a script, which the store then runs and checks, or a report, or a book, whose script is read; where none is named, it
is standard input. docs/gis.md has an example of each word.

status 0    all was written, and no line was refused
status 1    explain: some line was refused; meets, rights, crosses and walls: a limit of the store leaves something unanswered;
            plan and solids: --leave-out left features out; else: the file is no report, or the report is not accepted or
            shows nothing, or it is not known where the script lies on the map
status 2    the words are not known, or do not fit the file
status 3    the input could not be read
status 4    the output could not be written; plan and solids: some feature cannot be registered, which is named, and nothing
            was written
status 5    the store, a package or a grid is missing
status 6    the report has more than 67,108,864 bytes, and nothing was written
status 7    all was written, and is not checked: the report of the script has more than 67,108,864 bytes
"""
import argparse
import json
import os
import sys
from dataclasses import fields, replace
from typing import Any, Callable, NamedTuple, Optional, Sequence, Type, TypeVar, Union

from . import (
    Fault, book, city, conflicts, crosses, crosses_forms, explain, extract, gis, limits, lots, measures, meets, meets_forms, picture, place, postgis, report,
    script, store, times, view, walls, walls_forms, words)

Kind = TypeVar("Kind")
# The words, and the forms of `meets`, that write map coordinates.
ON_MAP = {"view", "city", "sections", "lots", "faces", "postgis"}
# The status if all was written, of a report that is too long to be checked.
NOT_CHECKED = 7


class Written(NamedTuple):
    """The status, what goes to the output, and the lines for standard error."""

    status: int
    text: Union[str, bytes]
    said: list[str]


def options_of(kind: Type[Kind], given: argparse.Namespace) -> Kind:
    """Returns the options of a `kind` from the words `given`; an option that the word does not have keeps its default."""
    return kind(**{each.name: getattr(given, each.name) for each in fields(kind) if hasattr(given, each.name)})


def read(given: argparse.Namespace) -> bytes:
    """Reads the file that the words `given` name, or standard input without a file; reads the script of a book."""
    path = None if given.file == "-" else given.file
    try:
        with open(path, "rb") if path else sys.stdin.buffer as file:
            text = file.read()
    except OSError as error:
        raise Fault(f"{path or 'standard input'} cannot be read: {error.strerror}", 3, "correct the path, or ask who may read the file" if path else
                    "name a file")
    if not book.is_book(text):
        return text
    if not path:
        raise Fault("a book is not read from standard input: name its file. Nothing was written.", 2)
    return book.script(path, store.program(given.store))


def is_book_file(path: Optional[str]) -> bool:
    """Returns whether the file at a `path` is a book; standard input, "-" or no path, is none."""
    if not path or not os.path.isfile(path):
        return False
    with open(path, "rb") as file:
        return book.is_book(file.read(len(book.MAGIC)))


def line_of(given: argparse.Namespace) -> Optional[int]:
    """Returns the line that --asof names; a date is the last line that was added to a book on it or before."""
    if not isinstance(given.asof, str):
        line: Optional[int] = given.asof
        return line
    if not given.file or not os.path.isfile(given.file):
        raise Fault("--asof takes a date of a book, and no file of a book is named. Nothing was written: name it, or give the number of a line.", 2)
    if not is_book_file(given.file):
        raise Fault(f"--asof takes a date of a book, and {given.file} is none: give the number of a line. Nothing was written.", 2)
    return book.last_line(given.file, given.asof, store.program(given.store))


def asked_times(given: argparse.Namespace) -> times.Times:
    """Returns all lots that ever existed in a script or a book."""
    asked, where = read_script(given, f"{given.word} --time", True)
    added = book.days(given.file) if is_book_file(given.file) else []
    return times.times(asked, where, store.program(given.store), added)


def read_seen(given: argparse.Namespace) -> lots.Seen:
    return lots.load(read(given), options_of(lots.Options, given), on_map=given.word in ON_MAP)


def as_json(made: dict[str, Any]) -> str:
    return json.dumps(made) + "\n"


def written(seen: lots.Seen, text: Union[str, bytes], said: Sequence[str] = ()) -> Written:
    """Returns the `text` that was made of what was `seen`, with what is `said`, and with a warning if that is not checked."""
    return Written(NOT_CHECKED if seen.warnings else 0, text, [*said, *seen.warnings])


def status_of(run: store.Run, is_partial: object) -> int:
    """Returns the status of answers that a `run` gave: 1 if they are partial."""
    return 1 if is_partial else 0 if run.is_checked else NOT_CHECKED


def write_view(given: argparse.Namespace) -> Written:
    title = given.title or (os.path.basename(given.file) if given.file else "lots")
    step = int(given.storey * 1000)
    if not given.time:
        seen = read_seen(given)
        return written(seen, view.page(seen, title, step))
    found = asked_times(given)
    return written(found.seen, view.page(found.seen, title, step, found.moments))


def write_picture(given: argparse.Namespace) -> Written:
    seen = read_seen(given)
    return written(seen, picture.picture(seen, given.width), [picture.summary(seen)])


def shown_as(form: Callable[[lots.Seen], str]) -> Callable[[argparse.Namespace], Written]:
    """Returns what writes a `form` of what the file shows."""
    def write_form(given: argparse.Namespace) -> Written:
        seen = read_seen(given)
        return written(seen, form(seen))

    return write_form


def write_conflicts(given: argparse.Namespace) -> Written:
    asked, where = read_script(given, "explain --geojson", True)
    found, run = conflicts.conflicts(asked, where, store.program(given.store))
    said = f"{len(found):,} refused line{'s' * (len(found) != 1)}; {run.said}"
    return Written(status_of(run, found), as_json(conflicts.features(found, where, given.geojson)), [said, *run.warnings])


def write_overlaps(given: argparse.Namespace) -> Written:
    asked, where = read_script(given, "explain --all")
    sentences = list(conflicts.all_overlaps(asked, where, store.program(given.store)))
    return Written(int(bool(sentences)), "".join(f"{sentence}\n" for sentence in sentences), [])


def ground(text: bytes, options: lots.Options) -> tuple[place.Place, list[str]]:
    """Returns where a text lies on the map, or nowhere, and the lines to report about the place: an explanation needs no map."""
    try:
        return place.place_of(text, options), []
    except place.Unplaced as fault:
        return place.Place(), [f"{fault.why}; so points are told in metres from the local origin"]


def write_explanations(given: argparse.Namespace) -> Written:
    if given.geojson:
        return write_conflicts(given)
    if given.all:
        return write_overlaps(given)
    text, options = read(given), options_of(lots.Options, given)
    (where, said), program = ground(text, options), store.program(options.store)
    text = script.front(text, options.asof)
    if not store.is_report(text):
        text, size = store.full_or_brief(program, text)
        said += explain.said_of_length(size)
    elif not store.is_brief(text) and not options.unchecked:
        # A brief report shows no points, and `check` takes full ones alone.
        store.accepted(store.checked(text, program))
    met = {} if options.unchecked else limits.met(text, program)
    sentences = list(explain.explained(text, where, met))
    return Written(int(bool(sentences)), "".join(f"{sentence}\n" for sentence in sentences), said)


def read_script(given: argparse.Namespace, what: str, on_map: bool = False) -> tuple[script.Script, place.Place]:
    """Reads the script of a word or an option `what` that adds lines to it: up to --asof, and with `on_map` where it is on the map."""
    whole = script.needed_script(read(given), what)
    where = place.place_of(whole.text, options_of(lots.Options, given)) if on_map else place.Place()
    return whole if given.asof is None else whole.front(given.asof), where


def region_of(given: argparse.Namespace, where: place.Place, version: int) -> tuple[str, list[str]]:
    """Returns the expression of the region that the words `given` name, and the lines to report about the region."""
    if not given.drawn:
        return given.region, []
    # GDAL and PROJ are imported for what is drawn alone.
    from . import drawn
    return drawn.expression(options_of(drawn.Options, given), where, version)


def write_meets(given: argparse.Namespace) -> Written:
    asked, where = read_script(given, "meets", given.form in ON_MAP or given.drawn)
    region, said = region_of(given, where, asked.version)
    found = meets.meets(asked, region, store.program(given.store), where, given.layer, given.touch)
    return Written(status_of(found.run, found.is_partial), meets_forms.FORMS[given.form](found), said + meets_forms.said(found))


def write_rights(given: argparse.Namespace) -> Written:
    asked, where = read_script(given, "rights", given.form in ON_MAP)
    found = meets.rights(asked, given.lot, store.program(given.store), where)
    return Written(status_of(found.run, found.is_partial), meets_forms.FORMS[given.form](found),
                   meets_forms.said_of_rights(found, given.lot))


def write_crosses(given: argparse.Namespace) -> Written:
    asked, where = read_script(given, "crosses", given.map or given.form == "lines")
    line = crosses.line_of(crosses.local([int(number * 1000) for number in given.points], where if given.map else place.Place()))
    found = crosses.crosses(asked, line, store.program(given.store), where, given.layer)
    return Written(status_of(found.run, found.unshown), crosses_forms.FORMS[given.form](found), crosses_forms.said(found))


def write_walls(given: argparse.Namespace) -> Written:
    asked, where = read_script(given, "walls", given.geojson)
    found = walls.walls(asked, given.lot, store.program(given.store))
    made = walls_forms.features(found, where) if given.geojson else walls_forms.table(found)
    return Written(status_of(found.run, found.limited), made, walls_forms.said(found))


def write_extract(given: argparse.Namespace) -> Written:
    made = extract.extract(script.needed_script(read(given), "extract").text, given.ids, store.program(given.store), given.neighbours)
    said = f"{made.kept:,} of {made.lines:,} lines; the report has {len(made.report):,} bytes and is accepted"
    if given.output:
        path = os.path.splitext(given.output)[0] + ".report"
        if path == given.output:
            raise Fault("-o names the script, and its report gets the ending .report", 2, "give -o another ending, as .rp")
        write(made.report, path)
    return Written(0, made.script, [said])


def read_times(given: argparse.Namespace) -> Optional[times.Times]:
    """Reads all lots that ever existed, with --time."""
    return asked_times(given) if given.time else None


def write_geometries(given: argparse.Namespace) -> Written:
    """Writes the lots of `lots` or `faces`, with --time all lots that ever existed."""
    geometry, found = gis.GEOMETRIES[given.word], read_times(given)
    seen = found.seen if found else read_seen(given)
    return written(seen, as_json(gis.lifetimes(found, geometry) if found else gis.features(seen, geometry)))


def write_postgis(given: argparse.Namespace) -> Written:
    found = read_times(given)
    seen = found.seen if found else read_seen(given)
    return written(seen, postgis.sql(seen, found), postgis.left_out(seen))


def write_plan(given: argparse.Namespace) -> Written:
    # GDAL and PROJ are imported for this word alone.
    from . import plan
    options = replace(options_of(plan.Options, given), program=store.program(given.store))
    return Written(*plan.script_of(given.file or "/vsistdin/", options))


def write_solids(given: argparse.Namespace) -> Written:
    # PROJ is imported for this word and `plan` alone.
    from . import solids
    return Written(*solids.script_of(read(given), options_of(solids.Options, given)))


# What each word writes.
WORDS: dict[str, Callable[[argparse.Namespace], Written]] = {
    "view": write_view, "picture": write_picture, "explain": write_explanations, "meets": write_meets, "rights": write_rights, "crosses": write_crosses,
    "walls": write_walls, "extract": write_extract, "plan": write_plan, "solids": write_solids,
    "measures": shown_as(measures.table), "city": shown_as(city.text), "sections": shown_as(lambda seen: as_json(gis.sections(seen))),
    "lots": write_geometries, "faces": write_geometries, "postgis": write_postgis,
}


def write(text: Union[str, bytes], path: Optional[str]) -> None:
    try:
        with open(path, "wb") if path else sys.stdout.buffer as out:
            out.write(text if isinstance(text, bytes) else text.encode())
    except OSError as error:
        raise Fault(f"{path or 'standard output'} cannot be written: {error.strerror}. Drop what is there of it, make room or name another path by -o, and run "
                    "again.", 4)


def main(line: Optional[list[str]] = None) -> int:
    given = words.parse(__doc__, line)
    try:
        if hasattr(given, "asof"):
            given.asof = line_of(given)
        status, text, said = WORDS[given.word](given)
        if text:
            write(text, given.output)
    except Fault as fault:
        status, said = fault.status, [str(fault)]
    for each in said:
        print(f"rpstore-gis: {each}", file=sys.stderr)
    return status


if __name__ == "__main__":
    sys.exit(main())
