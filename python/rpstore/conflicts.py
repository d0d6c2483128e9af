"""Refused lines of a script as features of a map: what each collides with, and where.

A copy of the script gets lines after each refused one that show the region in the way. The register is there what it was when the
line was refused, and the report of the copy is checked.
"""
from __future__ import annotations

import io
from dataclasses import dataclass
from fractions import Fraction
from typing import Any, Callable, Iterator, Optional

from . import explain, gis, limits, lots, meets, report, store, told
from .lots import Body
from .place import Place
from .points import Number
from .script import Script

# The causes after which a refusal has the numbers of children.
OF_CHILDREN = {"emptychild", "outside", "childrenoverlap"}


@dataclass(frozen=True)
class RefusedLine:
    """A refused line: its answer, the lot of which it speaks first, the lots or children that are in its way, what is said of it, and
    the names that lead to the region in its way, each with its expression."""

    answer: report.Answer
    id: Optional[str]
    others: tuple[str, ...]
    says: str
    steps: list[tuple[str, str]]


@dataclass(frozen=True)
class Conflict:
    """A refused line and the region in its way, if one is known."""

    refused: RefusedLine
    region: Optional[Body]


def refused_line(case: explain.Case) -> RefusedLine:
    """Returns what to report about a refused line. The register of the `case` changes with the next line."""
    if case.answer.command is None:
        return RefusedLine(case.answer, None, (), explain.short_sentence(case), [])
    others = tuple(map(case.child, case.told)) if case.answer.verdict.cause in OF_CHILDREN else case.told
    return RefusedLine(case.answer, case.lot or None, others, explain.short_sentence(case), explain.named_steps(case, explain.reason_of(case)))


def with_regions(script: Script, refused: dict[int, RefusedLine]) -> bytes:
    """Returns a copy of the `script` in which each refused line, by its number, has lines after it that name and show the region in
    its way."""
    made = [b"rp 2"] * script.is_marked
    for number, line in enumerate(script.lines, 1):
        made.append(line)
        steps = refused[number].steps if number in refused else []
        made += [f"let {name} = {expression}".encode() for name, expression in steps]
        made += [f"show name {name}".encode() for name, _ in steps[-1:]]
    return b"\n".join([*made, b""])


def regions_of(run: store.Run) -> dict[str, Body]:
    """Returns the regions that lines `show name X` show, by X."""
    found = {}
    for answer in report.read(io.BytesIO(run.text)):
        name = lots.name_of(answer.command) if answer.command and answer.command.word == "show" else None
        cells = lots.cells_of(answer) if name else []
        if name and cells:
            found[name] = Body(name, False, "conflicts", answer.number, (), cells)
    return found


def conflicts(script: Script, place: Place, program: str) -> tuple[list[Conflict], store.Run]:
    """Asks the store `program` for the refused lines of a `script` and for the region in the way of each refused line;
    returns both, and the report that shows the regions."""
    told = store.run(program, script.text, "run", "brief")
    cases = explain.cases(told, place, limits.met(told, program))
    refused = {case.answer.number: refused_line(case) for case in cases}
    run = store.run_and_check(with_regions(script, refused), program)
    regions = regions_of(run)
    return [Conflict(each, regions.get(each.steps[-1][0]) if each.steps else None) for each in refused.values()], run


# ---- all lots that a refused line overlaps

def overlapped(case: explain.Case, script: Script, program: str) -> meets.Result:
    """Asks the store `program` which live lots of its layer the region of a line of the `script` meets, which was refused with
    `overlaps`: the refusal names the first alone."""
    front = script.front(case.answer.number - 1)
    return meets.meets(front, case.command.expression(), program, Place(), [case.register.layer])


def all_overlaps(script: Script, place: Place, program: str) -> Iterator[str]:
    """Yields, for each line of the `script` that is refused with `overlaps`, a sentence that names all lots that it overlaps."""
    for case in explain.cases(store.run(program, script.text, "run", "brief"), place):
        if case.answer.verdict.cause == "overlaps":
            found = overlapped(case, script, program)
            ids = [each.lot.id for each in found.meetings]
            unsure = "; more may be met, since a limit of the store leaves some unanswered" if found.limited or found.unshown else ""
            yield f"{explain.head(case)}{case.lot} overlaps {len(ids):,} lot{'s' * (len(ids) != 1)}: {explain.listed(ids)}{unsure}."


# ---- features

def attributes(each: Conflict) -> dict[str, Any]:
    """Returns the properties of a feature. Lengths are lengths of the box round the region in the way; areas and
    volumes are those of the region."""
    refused, body = each.refused, each.region
    answer = refused.answer
    found = {"line": answer.number, "editor_line": answer.number + (answer.version == 2), "id": refused.id, "cause": answer.verdict.cause,
             "others": ",".join(refused.others) or None, "says": refused.says}
    if body is None or not body.is_bounded:
        return {**found, **dict.fromkeys(("base", "height", "east", "north", "up", "area", "volume"))}
    low, high = body.box
    east, north, up = (gis.metres(b - a) for a, b in zip(low, high))
    return {**found, "base": gis.metres(low[2]), "height": gis.metres(high[2]), "east": east, "north": north, "up": up,
            "area": gis.square_metres(body.area), "volume": gis.cubic_metres(body.volume)}


def inner(body: Body) -> list[Number]:
    """Returns a point in a body: the mean of the corners of its largest convex part."""
    part = max(body.cells, key=lambda cell: cell.volume)
    return [sum((Fraction(point[axis], point[3]) for point in part.points), Fraction(0)) / len(part.points) for axis in range(3)]


def point(place: Place, body: Body) -> gis.Geometry:
    """Returns a point in a body."""
    return {"type": "Point", "coordinates": [float(told.decimal(place.metres(number, axis), 6)) for axis, number in enumerate(inner(body))]}


GEOMETRIES: dict[str, Callable[[Place, Body], gis.Geometry]] = {"points": point, "areas": gis.covered, "faces": gis.boundary}


def features(found: list[Conflict], place: Place, form: str) -> dict[str, Any]:
    """Returns GeoJSON with a feature for each refused line. A line of which no place is known has no geometry."""
    return gis.collection(place, [(attributes(each), GEOMETRIES[form](place, each.region) if each.region and each.region.is_bounded else None)
                                  for each in found])
