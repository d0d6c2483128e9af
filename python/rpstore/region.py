"""A region after a script: its name there, the lines that ask about it, and what the store answers to them."""
from __future__ import annotations

import io
from dataclasses import dataclass
from typing import Iterator, Optional, Sequence

from . import Fault, command, explain, extract, hints, report, store
from .script import Script, fresh


@dataclass(frozen=True)
class Region:
    """A region after a script: the name it has there, its expression, and for each layer an id under which it is registered."""

    name: str
    expression: str
    probes: dict[str, str]

    @property
    def let(self) -> str:
        return f"let {self.name} = {self.expression}"

    @property
    def show(self) -> str:
        return f"show name {self.name}"

    def rcc(self, lot: report.Lot) -> str:
        return f"rcc lot {lot.id} name {self.name}"

    def common(self, lot: report.Lot) -> str:
        return f"show and lot {lot.id} name {self.name}"

    def register(self, layer: str) -> str:
        return f"register {self.probes[layer]} name {self.name}"

    def neighbours(self, layer: str) -> str:
        return f"neighbours {self.probes[layer]}"


def region_of(script: Script, expression: str, wanted: Sequence[report.Lot]) -> Region:
    """Returns a region with a name and ids that stand nowhere in the `script`, nor in its expression."""
    words = script.words | set(expression.split(" "))
    return Region(fresh("region", words), expression, {layer: fresh("probe", words) for layer in dict.fromkeys(lot.layer for lot in wanted)})


def see_expression(expression: str, version: int) -> None:
    """Reads the expression of a region.

    # Errors
    `Fault` if it is no expression, or too long for a line.
    """
    try:
        command.read(f"show {expression}", version)
    except command.Refusal as fault:
        # Words are counted from the first one of the expression.
        shifted = command.Refusal(fault.cause, fault.words[1:], fault.place - 1, fault.due)
        hint = hints.hint(shifted, version, lambda word: None)
        raise Fault(f"the region is no expression: {explain.misread(shifted, version)}{f' ({hint})' if hint else ''}. Nothing was asked: write it as "
                    f"after `show` in this script, which is of version {version}.", 2)
    if len(expression) + len("let  = ") + 32 > report.LONG[version]:
        raise Fault(f"the region has {len(expression):,} bytes, and a line of version {version} {report.LONG[version]:,}. Nothing was asked: give parts of "
                    "it a name by `let` in the script.", 2)


def see_region(let: report.Answer, empty: report.Answer, expression: str) -> None:
    """Checks that the store took a region, and that it has a point.

    # Errors
    `Fault` if one of the two is not so.
    """
    if isinstance(let.verdict, report.Refused):
        if let.verdict.cause == "unknown":
            raise Fault(f"the region names {let.verdict.told[0]}, which is no live lot and no name of the script. Nothing was asked: `list` in the "
                        "script shows the live lots.", 2)
        raise Fault("the region meets a limit of the store. Nothing was asked: divide it (docs/limits.md has the limits, with ways round each).", 2)
    if empty.verdict == "yes":
        raise Fault(f"the region has no point, so it meets no lot{explain.exchanged_ends(expression)}. Nothing was written.", 2)


# ---- questions and answers

def questions(region: Region, shared: Sequence[report.Lot]) -> Iterator[str]:
    """Yields the lines after the script, of which the lots `shared` share a point with the region."""
    yield region.let
    yield region.show
    for lot in shared:
        yield from (region.rcc(lot), f"show lot {lot.id}", region.common(lot))
    for layer in region.probes:
        yield from (f"retire {lot.id}" for lot in shared if lot.layer == layer)
        yield from (f"layer {layer}", region.register(layer), region.neighbours(layer))


@dataclass(frozen=True)
class Answers:
    """What the store answers to the questions about a region, by their lines; the report; and the extract of which it is, if any."""

    told: dict[str, report.Answer]
    run: store.Run
    excerpt: Optional[extract.Excerpt] = None

    def is_refused(self, line: str) -> bool:
        return isinstance(self.told[line].verdict, report.Refused)

    def unshown(self, region: Region) -> list[str]:
        """Returns the layers of which the report does not show that no other lot shares a point with the region."""
        return [layer for layer in region.probes if self.told[region.register(layer)].verdict != "ok"]

    def untouched(self, region: Region) -> list[str]:
        """Returns the layers in which the region registers, and of which it is not known which lots only touch it."""
        return [layer for layer in region.probes if layer not in self.unshown(region) and self.is_refused(region.neighbours(layer))]

    def beside(self, region: Region) -> set[str]:
        """Returns the ids of the lots that only touch the region, as far as no limit is reached."""
        asked = [self.told[region.neighbours(layer)].verdict for layer in region.probes]
        return {lot for verdict in asked if not isinstance(verdict, report.Refused) for lot in verdict}


def answers_of(script: Script, run: store.Run, excerpt: Optional[extract.Excerpt] = None) -> Answers:
    """Returns the answers to the questions after a `script`, or after an extract of it, which has the same numbers of lines."""
    return Answers({answer.text: answer for answer in report.read(io.BytesIO(script.tail(run.text))) if answer.text}, run, excerpt)
