"""Which live lots a line crosses, in their order along it, asked with commands of the language.

A lot owns a point if the store says so (`at`). The parts of the lots near the line, as the store shows them (`show`), say at which
places the line comes into a part or out of it: between two such places in turn all points have one owner. So the store is asked for the
owner of each such place, and of a point between each two.

That no other lot has a point of the line is answered by the store as well: the lots near the line are retired, and boxes round the line
are registered in their layer, which is refused if another live lot has a point of them. The script on disk stays as it is.
"""
from __future__ import annotations

import io
import itertools
from dataclasses import dataclass
from fractions import Fraction
from typing import Iterator, Optional, Sequence

from . import Fault, command, extract, report, store
from .line import Corner, Line, Stretch, middle
from .meets import overlapping, wanted_of
from .place import Place
from .region import Region, region_of
from .rings import joined
from .script import Script
from .shape import EDGE

# So many boxes are registered; a line has no more segments.
BOXES, MOST_SEGMENTS = 64, command.MOST_NODES // 2


@dataclass(frozen=True)
class Crossing:
    """What a lot has of a line in one go: from a place to a place of it, which are one place if that is a single point."""

    lot: report.Lot
    begin: Fraction
    end: Fraction


@dataclass(frozen=True)
class Result:
    """What a line crosses, and how much of that is shown.

    - `crossings`: what lots have of the line, in the order of their first points.
    - `free`: for each layer the stretches of the line that are in no lot of it.
    - `run`: the report, of the script or of an `excerpt`, an extract of it.
    - `unshown`: the layers of which the report does not show that no other lot is near the line, since a limit is met.
    - `unseen`: the lots of which the store says that they are not near the line, and the checked report does not show it.
    """

    line: Line
    crossings: list[Crossing]
    free: dict[str, list[Stretch]]
    run: store.Run
    place: Place
    unshown: list[str]
    unseen: list[report.Lot]
    excerpt: Optional[extract.Excerpt]


# ---- the line

def line_of(numbers: Sequence[int]) -> Line:
    """Returns the line through points, of each three numbers, in units.

    # Errors
    `Fault` if that is no line, or one that is too long for a script.
    """
    if len(numbers) % 3 or len(numbers) < 6:
        raise Fault(f"a line has two points or more, with three numbers each, x y z, and these are {len(numbers)} numbers. Nothing was asked.", 2)
    corners: list[Corner] = [(x, y, z) for x, y, z in zip(numbers[::3], numbers[1::3], numbers[2::3])]
    far = [number for number in numbers if abs(number) >= EDGE]
    if far:
        raise Fault(f"{command.spelled(far[0])} is out of bounds: coordinates are less than {command.spelled(EDGE)} m from the local origin. Of map "
                    "coordinates the local origin is to be taken away: --map does that. Nothing was asked.", 2)
    if any(p == q for p, q in zip(corners, corners[1:])):
        raise Fault("two points of the line that follow each other are one. Nothing was asked: leave one of them out.", 2)
    if len(corners) > MOST_SEGMENTS + 1:
        raise Fault(f"the line has {len(corners):,} points, and may have {MOST_SEGMENTS + 1}. Nothing was asked: divide it.", 2)
    return Line(corners)


def local(numbers: Sequence[int], where: Place) -> list[int]:
    """Returns numbers of points on the map, in millimetres, from the local origin.

    # Errors
    `Fault` if the origin is no whole millimetre.
    """
    origin = [where.metres(0, axis) * 1000 for axis in range(3)]
    if any(number.denominator != 1 for number in origin):
        raise Fault("the local origin has parts of a millimetre, and points of a line have none. Nothing was asked: give them from the origin.", 2)
    return [number - int(origin[at % 3]) for at, number in enumerate(numbers)]


def expression(line: Line, version: int) -> str:
    """Returns boxes round a line, written for a script of a `version`."""
    spelled = command.speller(version)
    return joined("or", [f"box {' '.join(map(spelled, low + high))}" for low, high in line.boxes(BOXES)])


# ---- questions

def steps(stations: Sequence[Fraction]) -> Iterator[Stretch]:
    """Yields the parts of a line by its `stations`, in order: a station, the stretch to the next station, the next
    station, and so on."""
    for begin, end in zip(stations, stations[1:]):
        yield from ((begin, begin), (begin, end))
    yield stations[-1], stations[-1]


def at(line: Line, step: Stretch, version: int) -> str:
    """Returns the question who owns the points of a `step` of a line."""
    begin, end = step
    *numbers, weight = line.point(begin if begin == end else middle(begin, end))
    return f"at {' '.join(map(command.speller(version), numbers))} {weight}"


def questions(region: Region, near: Sequence[report.Lot], points: Sequence[str]) -> Iterator[str]:
    """Yields the lines after the script: of the lots `near` the line their parts; in each layer the owners of `points`; and that there
    is no other lot in the boxes round the line."""
    yield region.let
    yield from (f"show lot {lot.id}" for lot in near)
    for layer in region.probes:
        yield from (f"layer {layer}", *points)
    for layer in region.probes:
        yield from (f"retire {lot.id}" for lot in near if lot.layer == layer)
        yield from (f"layer {layer}", region.register(layer))


# ---- answers

def parts_of(script: Script, near: Sequence[report.Lot], program: str) -> list[Sequence[tuple[int, ...]]]:
    """Returns the parts of the lots `near` the line, each as its half-spaces.

    # Errors
    `Fault` if the store does not show a lot.
    """
    answers = list(script.answers([f"show lot {lot.id}" for lot in near], program))
    limited = [lot.id for lot, answer in zip(near, answers) if isinstance(answer.verdict, report.Refused)]
    if limited:
        raise Fault(f"the store does not show {', '.join(limited)}, so it is not known where the line crosses it", 1,
                    "these lots meet a limit of the store (docs/limits.md has ways round each)")
    return [part for answer in answers for part in answer.verdict]


@dataclass(frozen=True)
class Answers:
    """For each layer the owners of the steps of a line, of each an id or None, and the layers in which the boxes round it were not
    registered."""

    owners: dict[str, list[Optional[str]]]
    unshown: list[str]


def answers_of(script: Script, run: store.Run, region: Region, near: Sequence[report.Lot], count: int) -> Answers:
    """Returns the answers to the questions about `count` points after a `script`, or after an extract of it."""
    told = report.read(io.BytesIO(script.tail(run.text)))
    shown = list(itertools.islice(told, 1 + len(near)))[1:]
    if any(isinstance(answer.verdict, report.Refused) for answer in shown):
        raise Fault("the store does not show the lots near the line", 1, "these lots meet a limit of the store (docs/limits.md has ways round each)")
    owners = {layer: [answer.verdict for answer in itertools.islice(told, 1 + count)][1:] for layer in region.probes}
    registered = {answer.text: answer.verdict for answer in told}
    return Answers(owners, [layer for layer in region.probes if registered[region.register(layer)] != "ok"])


def runs(stretches: Sequence[Stretch], owners: Sequence[Optional[str]]) -> Iterator[tuple[Optional[str], Fraction, Fraction]]:
    """Yields each owner, or None, with the places from where to where it owns all points of a line, in order."""
    for owner, group in itertools.groupby(zip(owners, stretches), key=lambda each: each[0]):
        found = [step for _, step in group]
        yield owner, found[0][0], found[-1][1]


def crossings_of(stretches: Sequence[Stretch], owners: dict[str, list[Optional[str]]], near: Sequence[report.Lot]) -> list[Crossing]:
    """Returns what lots have of a line, by the steps of the line and the owners of the steps in each layer."""
    known = {lot.id: lot for lot in near}
    found = [Crossing(known[owner], begin, end) for each in owners.values() for owner, begin, end in runs(stretches, each) if owner]
    return sorted(found, key=lambda each: (each.begin, each.end))


def crosses(script: Script, line: Line, program: str, place: Place, only: Sequence[str] = ()) -> Result:
    """Asks the store `program` which live lots of a `script` a line crosses: lots of all layers, or of the layers `only`."""
    wanted = wanted_of(script.live(program), only)
    region = region_of(script, expression(line, script.version), wanted)
    shared, unasked = overlapping(script, region, wanted, program)
    ids = {lot.id for lot in (*shared, *unasked)}
    near = [lot for lot in wanted if lot.id in ids]
    stretches = list(steps(line.stations(parts_of(script, near, program))))
    points = [at(line, step, script.version) for step in stretches]
    run, excerpt = store.run_and_check(script.then(questions(region, near, points)), program), None
    found = answers_of(script, run, region, near, len(points))
    if not run.is_checked or found.unshown:
        excerpt = extract.excerpt(extract.lines_of(script.text), run.text, ids, program)
    if excerpt:
        run = excerpt.run
        found = answers_of(script, run, region, near, len(points))
    free = {layer: [(begin, end) for owner, begin, end in runs(stretches, owners) if not owner] for layer, owners in found.owners.items()}
    unseen = [lot for lot in wanted if lot.id not in ids and (lot.layer in found.unshown or excerpt and lot.id not in excerpt.live)]
    return Result(line, crossings_of(stretches, found.owners, near), free, run, place, found.unshown, unseen, excerpt)
