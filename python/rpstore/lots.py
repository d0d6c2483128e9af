"""The bodies and slices that a report shows. Of a script the store is asked first for what its lots are."""
from __future__ import annotations

import io
from dataclasses import dataclass, replace
from decimal import Decimal
from fractions import Fraction
from functools import cached_property
from typing import BinaryIO, Optional, Sequence

from . import Fault, outline, report, shape, store
from .command import Command, spelled
from .place import Place, place_of
from .points import Box, Ring, box_round, lowest
from .script import Script, front, needed_script, script_of

# An expression that is longer stands shortened in a label.
LONGEST = 60


@dataclass(eq=False)
class Body:
    """A lot, or another region that a line shows: its parts as bodies that share no volume. `born` is the line at which the lot
    came, or the one that shows the region, and `ended` the line at which it ended."""

    label: str
    is_lot: bool
    layer: str
    born: int
    origins: tuple[str, ...]
    cells: list[shape.Cell]
    ended: Optional[int] = None

    @cached_property
    def facets(self) -> list[shape.Facet]:
        """Returns the boundary, without what two parts have in common."""
        return shape.facets(self.cells)

    @cached_property
    def footprint(self) -> list[Ring]:
        """Returns what the body covers in plan, as convex polygons that share no area."""
        return shape.footprint(self.facets)

    @cached_property
    def volume(self) -> Fraction:
        return shape.volume(self.cells)

    @cached_property
    def area(self) -> Fraction:
        """Returns the area in plan: what lies over each other counts once."""
        return sum(map(outline.area, self.footprint), Fraction(0))

    @cached_property
    def box(self) -> Box:
        return box_round(each.box for each in self.cells)

    @property
    def is_bounded(self) -> bool:
        """Returns whether the body reaches no side of the domain, within which every region ends."""
        return all(each.is_bounded for each in self.cells)


@dataclass(eq=False)
class Slice:
    """What the line `number`, a `section`, shows: a lot's id and layer or None, how the region is called, the height in units,
    and the rings of its parts."""

    number: int
    lot: Optional[str]
    layer: Optional[str]
    label: str
    height: int
    rings: list[Ring]

    @cached_property
    def polygons(self) -> list[Ring]:
        """Returns what there is, as convex polygons that share no area."""
        return outline.apart(self.rings)

    @cached_property
    def outlines(self) -> list[outline.Outline]:
        return outline.outlines(self.polygons) if self.polygons else []

    @cached_property
    def area(self) -> Fraction:
        return sum(map(outline.area, self.polygons), Fraction(0))

    @property
    def is_bounded(self) -> bool:
        return all(max(abs(x), abs(y)) < shape.EDGE * w for ring in self.rings for x, y, w in ring)


@dataclass
class Seen:
    """What was read: bodies and slices in the order of their lines, where they are on the map, how many lines were refused,
    what `check` says of the report, or why it was not asked, the version of its script, and lines for standard error if a script
    has too long a report to be checked; and whether it was a script that was read."""

    bodies: list[Body]
    slices: list[Slice]
    place: Place
    refused: int
    check: str
    version: int
    warnings: Sequence[str] = ()
    is_script: bool = False

    def without(self, what: str) -> Fault:
        """Returns the refusal of a file that has nothing to be written: `what` is not there."""
        if self.is_script:
            return Fault(f"after the script there is {what}. Nothing was written.")
        return Fault(f"the report shows {what}. Nothing was written: name the script that was run in its place, and its live lots are shown; or run the "
                     "script again with a line `show lot X` after it for each lot X.")


def lot_of(parsed: Command) -> Optional[str]:
    """Returns the id of the lot where an expression is one lot and nothing else."""
    words = parsed.words[slice(*parsed.expressions[0])]
    return words[1] if words[0] == "lot" and len(words) == 2 else None


def name_of(parsed: Command) -> Optional[str]:
    """Returns the name where an expression is one name and nothing else."""
    words = parsed.words[slice(*parsed.expressions[0])]
    return words[1] if words[0] == "name" and len(words) == 2 else None


def label_of(parsed: Command) -> str:
    """Returns how a picture and a table call what a line shows."""
    told = parsed.expression()
    return lot_of(parsed) or name_of(parsed) or (told if len(told) < LONGEST else told[:LONGEST - 3] + "...")


@dataclass
class Known:
    """A lot that was registered: its layer, the line at which it came, its origins, and the line at which it ended and the
    lots that came of it."""

    layer: str
    born: int
    origins: tuple[str, ...]
    ended: Optional[int] = None
    into: tuple[str, ...] = ()


class Register:
    """Which names and lots there are, as far as the lines tell."""

    def __init__(self) -> None:
        self.layer = "base"
        self.names: dict[str, int] = {}
        self.lots: dict[str, Known] = {}

    def end(self, lot: str, number: int, into: tuple[str, ...]) -> None:
        if lot in self.lots:
            self.lots[lot].ended, self.lots[lot].into = number, into

    def layer_of(self, lot: Optional[str]) -> str:
        return self.lots[lot].layer if lot and lot in self.lots else "base"

    def take(self, answer: report.Answer) -> None:
        """The change of a line that was answered with `ok`."""
        parsed, number = answer.parsed, answer.number
        first, *others = parsed.names
        if parsed.word == "layer":
            self.layer = first
        elif parsed.word == "let":
            self.names[first] = number
        elif parsed.word == "register":
            self.lots[first] = Known(self.layer, number, ())
        elif parsed.word == "retire":
            self.end(first, number, ())
        elif parsed.word in ("cut", "subdivide"):
            for child in others:
                self.lots[child] = Known(self.layer_of(first), number, (first,))
            self.end(first, number, tuple(others))
        else:
            self.lots[first] = Known(self.layer_of(others[0]), number, tuple(others))
            for lot in others:
                self.end(lot, number, (first,))


def cells_of(answer: report.Answer) -> list[shape.Cell]:
    """Returns what a line `show` shows as bodies that share no volume; none if the line was refused."""
    return [] if isinstance(answer.verdict, report.Refused) else shape.apart(body for body in map(shape.cell, answer.verdict) if body)


def lot_body(lot: report.Lot, cells: list[shape.Cell]) -> Optional[Body]:
    """Returns a lot, or a piece of it, that has these `cells`, or None if there are none."""
    return Body(lot.id, True, lot.layer, lot.born, lot.origins, cells, lot.ended) if cells else None


def body_of(answer: report.Answer, register: Register) -> Optional[Body]:
    """Returns the body that a line `show` shows, or None if it has no part. Regions that are no lots are in layers of their own."""
    cells = cells_of(answer)
    if not cells:
        return None
    parsed, lot = answer.parsed, lot_of(answer.parsed)
    if lot:
        known = register.lots.get(lot, Known("base", answer.number, ()))
    else:
        known = Known("named regions" if name_of(parsed) else "other regions", answer.number, ())
    return Body(label_of(parsed), bool(lot), known.layer, known.born, known.origins, cells)


def slice_of(answer: report.Answer, register: Register) -> Slice:
    """Returns what a line `section` shows."""
    parsed, lot = answer.parsed, lot_of(answer.parsed)
    rings = [[lowest((x, y, w)) for x, y, _, w in ring] for ring in answer.verdict if ring]
    return Slice(answer.number, lot, register.layer_of(lot) if lot else None, label_of(parsed), parsed.numbers[0], rings)


def seen(file: BinaryIO, place: Optional[Place] = None, check: str = "") -> Seen:
    """Returns what a report shows. A region that is shown twice is taken where it is shown last, and a lot that ended is left out."""
    register, refused, version = Register(), 0, 1
    bodies: dict[str, Body] = {}
    slices: list[Slice] = []
    for answer in report.read(file):
        version = answer.version
        if isinstance(answer.verdict, report.Refused):
            refused += 1
        elif answer.verdict == "ok":
            register.take(answer)
        elif answer.parsed.word == "show":
            key = answer.parsed.expression()
            bodies.pop(key, None)
            body = body_of(answer, register)
            if body:
                bodies[key] = body
        elif answer.parsed.word == "section":
            slices.append(slice_of(answer, register))
    ended = {lot for lot, known in register.lots.items() if known.ended is not None}
    left = [body for body in bodies.values() if not (body.is_lot and body.label in ended)]
    return Seen(left, slices, place or Place(), refused, check, version)


# ---- what a file shows

@dataclass
class Options:
    """What the words of the command line say of a file that shows lots; `words` has what each is for."""

    origin: Optional[Sequence[Decimal]] = None
    epsg: Optional[int] = None
    store: Optional[str] = None
    unchecked: bool = False
    names: bool = False
    asof: Optional[int] = None
    at: Sequence[Decimal] = ()


def names_of(script: Script, program: str) -> list[str]:
    """Returns the names that the `let` lines of a `script` give."""
    answers = report.read(io.BytesIO(store.run(program, script.text, "run", "brief")))
    return [answer.parsed.names[0] for answer in answers if answer.verdict == "ok" and answer.parsed.word == "let"]


def lines_to_show(script: Script, program: str, names: bool = False, heights: Sequence[Decimal] = ()) -> list[str]:
    """Returns lines that show the live lots of a `script`, and with `names`, or if it has no live lot, the regions that it names; and
    lines `section` of all these at some `heights`, in metres."""
    lots = [f"lot {lot.id}" for lot in script.live(program)]
    regions = lots + [f"name {name}" for name in (names_of(script, program) if names or not lots else [])]
    levels = [spelled(int(height * 1000)) if script.is_marked else str(int(height * 1000)) for height in heights]
    return [f"show {region}" for region in regions] + [f"section {region} {level}" for level in levels for region in regions]


def load(text: bytes, given: Options, on_map: bool = True) -> Seen:
    """Returns what a `text` shows: a report, or a script, of which the store makes one that shows its lots. Without `on_map` its
    notes on its place are not read.

    # Errors
    `place.Unplaced` if it is not known where the script lies on the map.
    """
    place, program = place_of(text, given) if on_map else Place(), store.program(given.store)
    text = front(text, given.asof)
    if given.at:
        needed_script(text, "--at")
    if store.is_report(text):
        return seen(io.BytesIO(text), place, "not checked" if given.unchecked else store.judged(text, program))
    script = script_of(text)
    run = store.run_and_check(script.then(lines_to_show(script, program, given.names, given.at)), program)
    return replace(seen(io.BytesIO(run.text), place, run.check), warnings=run.warnings, is_script=True)
