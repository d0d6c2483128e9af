"""What lots have in common with those that touch them. The store says which these are (`neighbours`)."""
from __future__ import annotations

import io
from dataclasses import dataclass
from typing import Collection, Iterable, NamedTuple, Optional, Sequence

from . import Fault, extract, hints, lots, report, store
from .lots import Body
from .script import Script
from .touch import Contact, contact_of


class Pair(NamedTuple):
    """Two lots that touch, in the order in which they are told, and what they have in common."""

    lot: Body
    other: Body
    contact: Contact


@dataclass(frozen=True)
class Result:
    """Each two lots that touch, once; the lots whose neighbours are not known, or whose shape is not, since a limit of the store is
    met; the report; and the extract of which it is, if it is of one."""

    pairs: list[Pair]
    limited: list[str]
    run: store.Run
    excerpt: Optional[extract.Excerpt] = None


def lots_asked(live: Sequence[report.Lot], ids: Sequence[str]) -> list[str]:
    """Returns the `ids`, or the ids of all live lots if there are none.

    # Errors
    `Fault` if one of the ids is that of no live lot.
    """
    known = {each.id for each in live}
    missing = [lot for lot in ids if lot not in known]
    if missing:
        what = hints.meant(missing[0], sorted(known)) or ": `list` in the script shows which are."
        raise Fault(f"no live lot is called {', '.join(missing)}{what} Nothing was asked.", 2)
    return list(dict.fromkeys(ids)) or [lot.id for lot in live]


def pairs_of(beside: dict[str, Iterable[str]], bodies: dict[str, Body]) -> list[Pair]:
    """Returns each two lots of which one is `beside` the other, once."""
    pairs = dict.fromkeys(tuple(sorted((lot, other))) for lot, others in beside.items() for other in others)
    order = {lot: place for place, lot in enumerate(bodies)}
    found = [sorted(pair, key=lambda lot: order[lot]) for pair in pairs if all(lot in bodies for lot in pair)]
    return [Pair(bodies[lot], bodies[other], contact_of(bodies[lot], bodies[other])) for lot, other in found]


def with_neighbours(script: Script, asked: Sequence[str], program: str) -> set[str]:
    """Returns the ids `asked` with those of the lots that touch these, as far as no limit of the store is met."""
    verdicts = [answer.verdict for answer in script.answers([f"neighbours {lot}" for lot in asked], program)]
    return {*asked, *(lot for verdict in verdicts if not isinstance(verdict, report.Refused) for lot in verdict)}


def answered(script: Script, lines: Sequence[str], ids: Collection[str], program: str) -> tuple[store.Run, Optional[extract.Excerpt]]:
    """Asks the store `program` the questions `lines` after a `script`, or after an extract for the lots `ids`, if there are some and the
    report is too long to be checked; returns the report, and the extract if it is of one."""
    run = store.run_and_check(script.then(lines), program)
    found = None if run.is_checked or not ids else extract.excerpt(extract.lines_of(script.text), run.text, ids, program)
    return (found.run, found) if found else (run, None)


def walls(script: Script, ids: Sequence[str], program: str) -> Result:
    """Asks the store `program` which lots of a `script` touch the lots `ids`, or, without ids, which lots touch each
    other; computes what each two have in common."""
    live = script.live(program)
    asked = lots_asked(live, ids)
    near = with_neighbours(script, asked, program) if ids else set(asked)
    wanted = [lot for lot in live if lot.id in near]
    lines = [f"show lot {lot.id}" for lot in wanted] + [f"neighbours {lot}" for lot in asked]
    run, excerpt = answered(script, lines, near if ids else (), program)
    answers = {answer.text: answer for answer in report.read(io.BytesIO(script.tail(run.text)))}
    shown = {lot.id: lots.lot_body(lot, lots.cells_of(answers[f"show lot {lot.id}"])) for lot in wanted}
    bodies = {lot: body for lot, body in shown.items() if body}
    verdicts = {lot: answers[f"neighbours {lot}"].verdict for lot in asked}
    beside = {lot: verdict for lot, verdict in verdicts.items() if not isinstance(verdict, report.Refused)}
    limited = [lot for lot in shown if lot not in bodies or lot in verdicts and lot not in beside]
    return Result(pairs_of(beside, bodies), limited, run, excerpt)
