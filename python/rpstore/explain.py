"""Says of each refused line of a report what was refused, at which word, by which bound, and where on the ground."""
import difflib
import io
import math
import re
from dataclasses import dataclass
from fractions import Fraction
from types import MappingProxyType
from typing import Callable, Collection, Iterator, Mapping, Sequence

from . import command, hints, lots, report, told
from .place import Place
from .script import fresh

UNDONE = {"register": "{0} was not registered", "cut": "{0} was not cut", "subdivide": "{0} was not subdivided",
          "consolidate": "{0} was not made by consolidating", "retire": "{0} was not retired", "let": "the name {0} was not given"}
WAYS = "from west to east", "from south to north", "in height"
MANY = 1000
# Where a report echoes a line that gives a name.
GIVEN = re.compile(rb"^> [0-9]+ let ([A-Za-z0-9_.-]+) ", re.M)


def listed(words: Sequence[str]) -> str:
    return ", ".join(words[:-1]) + f" and {words[-1]}" if len(words) > 1 else "".join(words)


def line(number: int, version: int) -> str:
    """Returns the number of a line as a report counts, and as an editor does, which counts the mark of version 2 too."""
    return f"line {number}" + (f" (in an editor {number + 1})" if version == 2 else "")


# ---- lines that are no commands

def bounds(due: command.Due, version: int) -> str:
    least, most = due.least, due.most or 0
    return f"from {command.spelled(least)} to {command.spelled(most)}" if due.is_decimal(version) else f"from {least} to {most}"


def short(word: str) -> str:
    """Returns a word as messages quote it: only the beginning of a long word, with invisible characters spelled out."""
    seen = "".join(each if each.isprintable() else each.encode("unicode_escape").decode() for each in word[:37])
    return f"{seen}... ({len(word)} characters)" if len(word) > 40 else seen + word[37:]


def misread(fault: command.Refusal, version: int) -> str:
    """Returns the word that does not fit, what is due there, and the bound."""
    due = fault.due
    if fault.cause == "zero":
        return f"the four numbers of half that end with word {fault.place + 1} are all 0, which is no half-space"
    if fault.cause == "nodes":
        return f"word {fault.place + 1}, \"{fault.word}\", is the 1,025th word of its kind, and a line may have {command.MOST_NODES:,}"
    within = f", {bounds(due, version)}" if due.most is not None else ""
    if fault.word is None:
        return f"the line ends where {due.what} is due{within}"
    where = f"word {fault.place + 1}, \"{short(fault.word)}\","
    if fault.cause == "range":
        return f"{where} is out of bounds: {due.what} is {bounds(due, version)}"
    return f"{where} stands where {due.what} is due{within}"


def of_no_command(answer: report.Answer, known: hints.Known) -> str:
    if answer.text is None:
        return f"it has more than {report.LONG[answer.version]:,} bytes" + ("; in version 2 it may have more" if answer.version == 1 else "")
    try:
        command.read(answer.text, answer.version)
    except command.Refusal as fault:
        hint = hints.hint(fault, answer.version, known)
        return misread(fault, answer.version) + (f" ({hint})" if hint else "")
    raise AssertionError("a line that was refused as no command is one")


# ---- commands that are refused

@dataclass
class Case:
    """A refused command: its answer; what the earlier lines registered; its place on the map; every name that a line
    gives or was advised to give; and the limit of the store that it reached, if known."""

    answer: report.Answer
    register: lots.Register
    place: Place
    names: set[str]
    met: str = ""

    @property
    def command(self) -> command.Command:
        return self.answer.parsed

    @property
    def told(self) -> tuple[str, ...]:
        """Returns the names or numbers after the cause."""
        told: tuple[str, ...] = self.answer.verdict.told
        return told

    @property
    def lot(self) -> str:
        """Returns the lot or the name that the command speaks of first."""
        return self.command.names[0] if self.command.names else ""

    def child(self, number: str) -> str:
        return self.command.names[int(number)]

    def region(self, number: str) -> str:
        """Returns the expression of a child."""
        return self.command.expression(int(number) - 1)

    def line(self, number: int) -> str:
        return line(number, self.answer.version)


@dataclass
class Reason:
    """Why a command was refused. If the report shows a point: what the point lies in, and how the region with the
    point is named in steps, each a name and an expression; {} stands for the name of the previous step."""

    why: str
    shown: str = ""
    steps: Sequence[tuple[str, str]] = ()


def meant(label: str, mine: Collection[str], kind: str, others: Collection[str]) -> str:
    """Returns what may be meant by a name or an id `label` that is none of `mine`: the same word of the other `kind`,
    which has `others`, or one that is nearly the same. Among very many that takes too long."""
    if label in others:
        return f"; it is a {kind}: `{kind} {label}`"
    near = difflib.get_close_matches(label, mine, 1) if len(mine) <= MANY else []
    return f"; {near[0]} may be meant" if near else ""


def of_lot(case: Case, lot: str) -> str:
    """Returns what is known of a lot that is not live."""
    known = case.register.lots.get(lot)
    if known is None:
        return f"no lot {lot} was registered before this line" + meant(lot, case.register.lots, "name", case.register.names)
    if known.ended is None:
        return f"the lot {lot} is there since {case.line(known.born)}"
    into = f"when {listed(known.into)} came in its place" if known.into else "when it was retired"
    return f"the lot {lot} ended in {case.line(known.ended)}, {into}"


def unknown(case: Case) -> Reason:
    [name] = case.told
    if ("name", name) in case.command.named and name not in case.register.names:
        return Reason(f"no line before gives the name {name}" + meant(name, case.register.names, "lot", case.register.lots))
    return Reason(of_lot(case, name))


def known(case: Case) -> Reason:
    [name] = case.told
    if case.command.word == "let":
        return Reason(f"the name {name} was given in {case.line(case.register.names[name])}, and a name is never given again")
    return Reason(f"the id {name} was given in {case.line(case.register.lots[name].born)}, and an id is never given again")


def limit(case: Case) -> Reason:
    why = f": {case.met}" if case.met else ", in making its parts, in the tests that it needs or in what is kept"
    return Reason(f"a limit of the store is met{why}; docs/limits.md has them, with ways round each")


def overlaps(case: Case) -> Reason:
    [other] = case.told
    since = case.line(case.register.lots[other].born)
    return Reason(f"it overlaps the lot {other}, which is there since {since}", "A point of both",
                  [("new", case.command.expression()), ("common", f"and name {{}} lot {other}")])


def outside(case: Case) -> Reason:
    [child] = case.told
    return Reason(f"child {child}, {case.child(child)}, has points outside {case.lot}", "A point outside",
                  [("outside", f"minus {case.region(child)} lot {case.lot}")])


def children_overlap(case: Case) -> Reason:
    first, second = case.told
    return Reason(f"the children {case.child(first)} and {case.child(second)} overlap", "A point of both",
                  [("common", f"and {case.region(first)} {case.region(second)}")])


def gap(case: Case) -> Reason:
    regions = [case.region(str(child)) for child in range(1, len(case.command.names))]
    whole = "minus " * len(regions) + " ".join([f"lot {case.lot}", *regions])
    each = [("gap", f"minus {'name {}' if place else f'lot {case.lot}'} {region}") for place, region in enumerate(regions)]
    steps = [("gap", whole)] if fits(f"let gap = {whole}", case.answer.version) else each
    return Reason(f"the children leave a part of {case.lot} over", "A point that is left over", steps)


def empty(case: Case) -> Reason:
    return Reason("its region has no point" + exchanged_ends(case.command.expression()))


def empty_child(case: Case) -> Reason:
    [child] = case.told
    return Reason(f"child {child}, {case.child(child)}, has no point" + exchanged_ends(case.region(child)))


def empty_side(case: Case) -> Reason:
    [side] = case.told
    why = "no point of it is in the region that cuts" if side == "1" else "all of it is in the region that cuts"
    return Reason(f"{case.child(side)} would have no point: {why}")


def empty_region(case: Case) -> Reason:
    return Reason(f"its {'first' if case.told == ('1',) else 'second'} region has no point")


def few(case: Case) -> Reason:
    return Reason(f"it needs two {'children' if case.command.word == 'subdivide' else 'lots'} or more")


def same(case: Case) -> Reason:
    return Reason(f"both new lots are called {case.command.names[1]}")


def repeated(case: Case) -> Reason:
    return Reason(f"{case.told[0]} stands twice in the line")


def layers(case: Case) -> Reason:
    [other] = case.told
    first = case.command.names[1 if case.command.word == "consolidate" else 0]
    here, there = (case.register.layer_of(lot) for lot in (first, other))
    return Reason(f"{other} is in the layer {there}, and {first} in the layer {here}")


CAUSES: dict[str, Callable[[Case], Reason]] = {
    "unknown": unknown, "known": known, "limit": limit, "overlaps": overlaps, "outside": outside, "childrenoverlap": children_overlap,
    "gap": gap, "empty": empty, "emptychild": empty_child, "emptyside": empty_side, "emptyregion": empty_region, "few": few, "same": same,
    "repeated": repeated, "layers": layers,
}


# The two ends on each axis: their places after the word that begins a box or a prism, and what the second and the first are called.
ENDS = {"box": ((3, 6, "upper height", "lower one"), (1, 4, "second x", "first"), (2, 5, "second y", "first")),
        "prism": ((1, 2, "upper height", "lower one"),)}


def units(word: str) -> int:
    return int(word.replace(".", ""))


def exchanged_ends(expression: str) -> str:
    """Returns what is wrong with the first box or prism of an `expression` that has no point because on some axis its second end is
    not above its first; "" if there is none."""
    words = expression.split(" ")
    for at, word in enumerate(words):
        if at and words[at - 1] in ("name", "lot"):
            # A name may be called box or prism.
            continue
        found = [f"; the {end} of its {word}, {words[at + last]}, is not above the {other}, {words[at + first]}"
                 for first, last, end, other in ENDS.get(word, ()) if units(words[at + last]) <= units(words[at + first])]
        if found:
            return "".join(found)
    return ""


# ---- where it is

def on_ground(point: list[Fraction], place: Place) -> str:
    """Returns a point in metres: on the map if the place is known, otherwise from the local origin."""
    if not place.is_given:
        return "x {}, y {}, z {} m".format(*map(told.metres, point))
    return "E {}, N {}, H {} m".format(*(told.exact(place.metres(number, axis)) for axis, number in enumerate(point)))


def shown(answer: report.Answer) -> list[list[Fraction]]:
    """Returns the points of the last proof line if it is a line `in`: their average is a point of the region that the
    line shows."""
    if not answer.proof or not answer.proof[-1].startswith(b"  in "):
        return []
    return [[Fraction(number, point[3]) for number in point[:3]] for point in report.tuples(answer.proof[-1])]


def extent(points: list[list[Fraction]], what: str, place: Place) -> str:
    """Returns a point of what the report shows, and how far its points reach."""
    middle = [sum(numbers) / len(points) for numbers in zip(*points)]
    reach = [max(numbers) - min(numbers) for numbers in zip(*points)]
    wide = listed([f"{told.metres(length)} m {way}" for length, way in zip(reach, WAYS) if length])
    return f" {what} is {on_ground(middle, place)}; the points that the report shows of it reach {wide}."


def fits(text: str, version: int) -> bool:
    """Returns whether a line is short enough."""
    try:
        command.read(text, version)
    except command.Refusal:
        return False
    return len(text) <= report.LONG[version]


def named_steps(case: Case, reason: Reason) -> list[tuple[str, str]]:
    """Returns the steps of a reason, each as a name that no line gives and its expression: the last one is the region in the way."""
    name, found = "", []
    for word, expression in reason.steps:
        text = expression.format(name)
        name = fresh(word, case.names)
        found.append((name, text))
    return found


def lines_to_show(case: Case, reason: Reason, points: list[list[Fraction]]) -> list[str]:
    """Returns lines for a script that show the region of a reason, and its section at a height at which the points
    show that it has points."""
    steps = named_steps(case, reason)
    name = steps[-1][0]
    made = [f"let {label} = {expression}" for label, expression in steps] + [f"pieces name {name}", f"show name {name}"]
    heights = [point[2] for point in points]
    height = math.floor(sum(heights) / len(heights))
    if min(heights) < height < max(heights):
        made.append(f"section name {name} {command.spelled(height) if case.answer.version == 2 else height}")
    return made if all(fits(each, case.answer.version) for each in made) else []


# ---- sentences

def said_of_length(size: int) -> list[str]:
    """Returns a line for standard error if the full report has a `size` in bytes that is too long to be read."""
    if size <= report.MOST:
        return []
    return [f"the report has {size:,} bytes, and {report.MOST:,} are read: no points are shown; `explain --geojson points` shows them on a map"]


def reason_of(case: Case) -> Reason:
    return CAUSES[case.answer.verdict.cause](case)


def summary(case: Case, reason: Reason) -> str:
    """Returns what a command did not do, and why."""
    what = UNDONE.get(case.command.word, "the question `{1}` was not answered").format(case.lot, case.command.word)
    return f"{what}, because {reason.why}."


def of_command(case: Case) -> str:
    answer, reason = case.answer, reason_of(case)
    points = shown(answer) if reason.shown else []
    said = summary(case, reason)
    if not points:
        return said + (" (A brief report shows no point: run without `brief` for one.)" if reason.shown and not answer.proof else "")
    said += extent(points, reason.shown, case.place)
    lines = lines_to_show(case, reason, points)
    return "\n    ".join([said + " These lines behind it show the place:", *lines]) if lines else said


def of_words(case: Case) -> str:
    """Returns the message for a line that is no command."""
    known = case.register
    return of_no_command(case.answer, lambda word: "name" if word in known.names else "lot" if word in known.lots else None) + "."


def head(case: Case) -> str:
    return case.line(case.answer.number).capitalize() + ": "


def sentence(case: Case) -> str:
    """Returns the message for one refused line, and the lines of a script that show where it is."""
    return head(case) + (of_words(case) if case.answer.command is None else of_command(case))


def short_sentence(case: Case) -> str:
    """Returns the message for one refused line, without a place."""
    return head(case) + (of_words(case) if case.answer.command is None else summary(case, reason_of(case)))


def cases(text: bytes, place: Place, met: Mapping[int, str] = MappingProxyType({})) -> Iterator[Case]:
    """Yields the refused lines of a report, with the limits that they `met` by their numbers. The register of a case is that before
    its line until the next case is taken."""
    register, names = lots.Register(), {name.decode() for name in GIVEN.findall(text)}
    for answer in report.read(io.BytesIO(text)):
        if isinstance(answer.verdict, report.Refused):
            yield Case(answer, register, place, names, met.get(answer.number, ""))
        elif answer.verdict == "ok":
            register.take(answer)


def explained(text: bytes, place: Place, met: Mapping[int, str] = MappingProxyType({})) -> Iterator[str]:
    """Returns what is to be said of each refused line of a report, with the limits that lines `met` by their numbers."""
    return map(sentence, cases(text, place, met))
