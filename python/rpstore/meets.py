"""Which live lots a region meets, and what each has of it, asked with commands of the language.

After the script come a name for the region and, for each lot that shares a point with it, how the two stand (`rcc`), the lot, and
what both have in common (`show`). That no other lot shares a point with the region is answered by the store as well: these lots are
retired, and the region is registered in their layer. A live lot of the layer that shares a point with it has that line refused.
`neighbours` then has the lots that only touch the region. The script on disk stays as it is.

If the report of all that is too long to be checked, or the register is too full for the region, the questions are asked again after an
extract of the script: the lines on which the lots near the region rest.
"""
from __future__ import annotations

import math
from dataclasses import dataclass, field, replace
from typing import Collection, Iterator, Optional, Sequence

from . import Fault, command, extract, lots, report, shape, store
from .lots import Body
from .place import Place
from .points import box_round
from .region import Answers, Region, answers_of, questions, region_of, see_expression, see_region
from .script import Script

# The relation of a lot that only touches the region.
TOUCHES = "EC"


@dataclass(frozen=True)
class Meeting:
    """A live lot that the region meets: its relation to the region, itself, and what both have in common. Of a lot that only touches
    the region there is the relation alone; what a limit of the store leaves unanswered is empty."""

    lot: report.Lot
    relation: str
    whole: Optional[Body] = None
    common: Optional[Body] = None


@dataclass(frozen=True)
class Result:
    """What a region meets, and how much of that is shown.

    - `meetings`: the lots that the region meets, in the order in which they came.
    - `region`: the region, if it has a volume.
    - `run`: the report, of the script or of an `excerpt`, an extract of it.
    - `limited`: the ids of lots for which some question met a limit.
    - `unshown`: the layers of which the report does not show that no other lot is met, since a limit is met.
    - `untouched`: the layers of which it is not known which lots only touch the region, since a limit is met.
    - `unseen`: the lots of which the store says that the region does not meet them, and the checked report does not show it.
    """

    meetings: list[Meeting]
    region: Optional[Body]
    run: store.Run
    limited: list[str]
    unshown: list[str]
    place: Place
    version: int
    excerpt: Optional[extract.Excerpt] = None
    untouched: list[str] = field(default_factory=list)
    unseen: list[report.Lot] = field(default_factory=list)

    @property
    def is_partial(self) -> bool:
        """Returns whether a limit of the store leaves something unanswered."""
        return bool(self.limited or self.unshown or self.untouched)


# ---- questions

def overlapping(script: Script, region: Region, wanted: Sequence[report.Lot], program: str) -> tuple[list[report.Lot], list[report.Lot]]:
    """Returns the lots of `wanted` that share a point with the region, and those for which the question met a limit."""
    lines = [region.let, f"empty name {region.name}", *(f"overlap lot {lot.id} name {region.name}" for lot in wanted)]
    answers = script.answers(lines, program)
    see_region(next(answers), next(answers), region.expression)
    said = [(lot, answer.verdict) for lot, answer in zip(wanted, answers)]
    return [lot for lot, verdict in said if verdict == "yes"], [lot for lot, verdict in said if isinstance(verdict, report.Refused)]


# ---- answers

def meeting_of(lot: report.Lot, region: Region, answers: Answers) -> Meeting:
    """Returns what the answers say of a lot that shares a point with the region."""
    told = answers.told
    relation = told[region.rcc(lot)].verdict
    return Meeting(lot, relation if isinstance(relation, str) else "", lots.lot_body(lot, lots.cells_of(told[f"show lot {lot.id}"])),
                   lots.lot_body(lot, lots.cells_of(told[region.common(lot)])))


def is_limited(lot: report.Lot, region: Region, answers: Answers) -> bool:
    """Returns whether a question about a lot met a limit."""
    return any(map(answers.is_refused, (region.rcc(lot), f"show lot {lot.id}", region.common(lot))))


def wanted_of(live: Sequence[report.Lot], only: Sequence[str]) -> list[report.Lot]:
    """Returns the live lots of the layers `only`, or all.

    # Errors
    `Fault` if one of these layers has no live lot.
    """
    there = dict.fromkeys(lot.layer for lot in live)
    missing = [layer for layer in only if layer not in there]
    if missing:
        raise Fault(f"no live lot is in the layer {', '.join(missing)}; there are {', '.join(there) or 'none'}. Nothing was asked.", 2)
    return [lot for lot in live if not only or lot.layer in only]


# ---- an extract

def box_text(cells: Sequence[shape.Cell], version: int) -> str:
    """Returns the least box with whole corners round a region with these `cells`, as a script of a `version` spells it."""
    low, high = box_round(each.box for each in cells)
    numbers = [math.floor(number) for number in low] + [math.ceil(number) for number in high]
    return f"box {' '.join(map(command.speller(version), numbers))}"


def near(script: Script, box: str, wanted: Sequence[report.Lot], program: str) -> list[str]:
    """Returns the ids of the lots of `wanted` that share a point with a `box` or touch it, and of those for which a limit is reached."""
    answers = script.answers([f"contact lot {lot.id} {box}" for lot in wanted], program)
    return [lot.id for lot, answer in zip(wanted, answers) if answer.verdict != "no"]


def choices(script: Script, region: Region, met: Collection[str], wanted: Sequence[report.Lot], whole: Answers, program: str) -> Iterator[Collection[str]]:
    """Yields the ids of lots for an extract, fewer each time: those near the box round the region, unless most lots are; and those that
    meet or touch the region, of which `met` may share a point with it."""
    cells = lots.cells_of(whole.told[region.show])
    boxed = near(script, box_text(cells, script.version), wanted, program) if cells else []
    # A report is as long as its lots are many, nearly.
    if boxed and len(boxed) * whole.run.size <= len(wanted) * report.MOST:
        yield boxed
    yield [*met, *whole.beside(region)]


def of_extract(script: Script, region: Region, met: Collection[str], wanted: Sequence[report.Lot], whole: Answers, program: str) -> Answers:
    """Asks the questions about the region again after an extract of the `script`, and returns these answers if their report is checked;
    otherwise those after the `whole` script."""
    for ids in choices(script, region, met, wanted, whole, program):
        found = extract.excerpt(extract.lines_of(script.text), whole.run.text, ids, program)
        if found:
            return answers_of(script, found.run, found)
    return whole


def unseen(wanted: Sequence[report.Lot], shared: Sequence[report.Lot], answers: Answers, unshown: Collection[str]) -> list[report.Lot]:
    """Returns the lots of which the report does not show that the region does not meet them: those that its extract does not have, and
    those of the layers `unshown`."""
    met = {lot.id for lot in shared}
    return [lot for lot in wanted if lot.id not in met and (lot.layer in unshown or answers.excerpt and lot.id not in answers.excerpt.live)]


def meets(script: Script, expression: str, program: str, place: Place, only: Sequence[str] = (), touch: bool = False) -> Result:
    """Asks the store `program` what of the live lots of a `script` meets the region of an `expression`: lots of all layers, or of
    the layers `only`; with `touch` also the lots that only touch it."""
    see_expression(expression, script.version)
    wanted = wanted_of(script.live(program), only)
    region = region_of(script, expression, wanted)
    shared, unasked = overlapping(script, region, wanted, program)
    answers = answers_of(script, store.run_and_check(script.then(questions(region, shared)), program))
    if not answers.run.is_checked or answers.unshown(region):
        answers = of_extract(script, region, [lot.id for lot in (*shared, *unasked)], wanted, answers, program)
    unshown, beside = answers.unshown(region), answers.beside(region)
    found = {lot.id: meeting_of(lot, region, answers) for lot in shared}
    found.update((lot.id, Meeting(lot, TOUCHES)) for lot in wanted if touch and lot.id in beside)
    cells = lots.cells_of(answers.told[region.show])
    # A layer in which the region registers has no other lot that meets it, whatever question met a limit.
    limited = [lot.id for lot in unasked if lot.layer in unshown] + [lot.id for lot in shared if is_limited(lot, region, answers)]
    return Result([found[lot.id] for lot in wanted if lot.id in found], Body("the region", False, "the region", 0, (), cells) if cells else None,
                  answers.run, limited, unshown, place, script.version, answers.excerpt, answers.untouched(region) if touch else [],
                  unseen(wanted, shared, answers, unshown))


def rights(script: Script, lot: str, program: str, place: Place) -> Result:
    """Asks the store `program` which live lots lie on a `lot`. They are of other layers, since lots of one layer share no point.

    # Errors
    `Fault` if the lot is not live.
    """
    found = meets(script, f"lot {lot}", program, place)
    return replace(found, meetings=[each for each in found.meetings if each.lot.id != lot])
