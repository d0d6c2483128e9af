"""How near the lots of a plan come to the limits of the store, before any of them is registered.

What is written is counted here; the parts of each lot are asked of the store, by a line `show` for each.
"""
from __future__ import annotations

import io
from typing import Iterator, NamedTuple, Optional, Sequence

from . import Fault, limits, report, store
from .command import CORNERS, MOST_NODES, NODES
from .limits import Form


class Forms(NamedTuple):
    """The forms of lots, None of a lot that the store refuses; the limits that these met, by the places of the lots; or why nothing is
    known of them."""

    forms: Sequence[Optional[Form]]
    met: dict[int, str]
    unknown: str = ""


def expression_of(line: str) -> str:
    """Returns the expression of a line `register`."""
    return line.split(" ", 2)[2]


def forms_of(lines: Sequence[str], program: str) -> Forms:
    """Asks the store `program` for the forms of the lots that `lines` register. Nothing is registered, so none is tested against another."""
    if not store.is_built(program):
        return Forms([], {}, f"the store {program} is not built")
    script = "".join(f"{line}\n" for line in ("rp 2", *(f"show {expression_of(line)}" for line in lines)))
    try:
        told = store.run(program, script.encode(), "run", "brief")
        verdicts = [answer.verdict for answer in report.read(io.BytesIO(told))]
        met = limits.met(told, program)
    except Fault as fault:
        return Forms([], {}, fault.said)
    return Forms([None if isinstance(verdict, report.Refused) else limits.form_of(verdict) for verdict in verdicts],
                 {number - 1: why for number, why in met.items()})


def corners_of(line: str) -> int:
    """Returns how many corners the largest prism of a line has."""
    words = line.split(" ")
    return max((int(words[at + 3]) for at, word in enumerate(words) if word == "prism" and at > 1), default=0)


def counts(lines: Sequence[str], found: Forms, size: int) -> Iterator[tuple[int, int, str]]:
    """Yields how much of each limit is used, the limit, and what it is of: of `lines` that register lots with the forms `found`, in a
    script with a `size` in bytes."""
    forms = [form for form in found.forms if form]
    if not found.unknown:
        yield sum(form.parts for form in forms), limits.MOST_KEPT, "parts of all lots"
        yield max((form.parts for form in forms), default=0), limits.MOST_PARTS, "parts of a lot"
        yield max((form.halves for form in forms), default=0), limits.MOST_HALVES, "half-spaces of a part"
    yield max((sum(word in NODES for word in line.split(" ")) for line in lines), default=0), MOST_NODES, "words of a line"
    yield max(map(corners_of, lines), default=0), CORNERS.most or 0, "corners of a prism"
    yield max(map(len, lines), default=0), report.LONG[2], "bytes of a line"
    yield size, limits.MOST_SCRIPT, "bytes of a script"


def said(lines: Sequence[str], found: Forms, size: int) -> str:
    """Returns a line for standard error: how near the lots that `lines` register come to each limit."""
    told = ", ".join(f"{used:,} of {most:,} {what}" for used, most, what in counts(lines, found, size))
    unknown = f"; parts are not counted, of which all lots have at most {limits.MOST_KEPT:,}: {found.unknown}" if found.unknown else ""
    return f"limits: {told}{unknown}"


def see_room(lines: Sequence[str], found: Forms) -> None:
    """Checks that a register has room for the lots that `lines` register.

    # Errors
    `Fault` if they have too many parts. A lot has one at least.
    """
    parts = len(lines) if found.unknown else sum(form.parts for form in found.forms if form)
    if parts > limits.MOST_KEPT:
        raise Fault(f"the lots have {parts:,} parts, and all lots of a register keep at most {limits.MOST_KEPT:,}, those that ended included: divide the plan "
                    "into several registers. Nothing was written.", 4)
