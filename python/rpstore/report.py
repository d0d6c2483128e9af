"""Reads a report, full or brief, answer by answer, and refuses what is none. docs/report.md has its lines.

The lines are taken one after the other, so a report of any length is read in the memory of its longest answer. Whether
what a report says is true, `./rpstore check` tells; here only its form is looked at, and that each verdict is one of its
command.
"""
from __future__ import annotations

import re
from dataclasses import dataclass
from typing import Any, BinaryIO, Iterator, NoReturn, Optional

from . import Fault, command, outline, points
from .command import Command

MOST = 67108864
# What to do about a text that is no report.
AGAIN = "run its script again, and take the whole report"
LONG = {1: 65536, 2: 262144}

INT = rb"(?:0|-?[1-9][0-9]*)"
ONE = rb"[1-9][0-9]*"
NAME = rb"[A-Za-z][A-Za-z0-9_.-]{0,31}"
HALF = rb"\(" + rb" ".join([INT] * 4) + rb"\)"
POINT = rb"\(" + rb" ".join([INT] * 3 + [ONE]) + rb"\)"
TRACE = rb"\(" + rb" ".join([INT] * 3) + rb"\)"
TIMES = ONE + rb"\*" + HALF
NUMBERS = re.compile(rb"\(([^)]*)\)")


def several(item: bytes, least: int, most: int) -> bytes:
    return item + rb"(?: " + item + rb"){%d,%d}" % (least - 1, most - 1)


PROOF = re.compile(rb"  (?:in " + several(POINT, 1, 4) + rb"|(?:out|apart) " + several(TIMES, 1, 4) + rb"|at " + POINT + rb"|drop " + HALF
                   + rb" " + several(TIMES, 1, 4) + rb"|box " + several(INT, 6, 6) + rb")")
ECHO = re.compile(rb"> (0|" + ONE + rb")(?: (.*))?", re.S)
SLICE = re.compile(rb"= ring " + several(TRACE + rb" " + POINT, 3, 36) + rb"|= flat " + several(TIMES, 1, 3))
PART = re.compile(rb"= part(?: " + HALF + rb"){0,32}")
LOT = re.compile(rb"= lot (" + NAME + rb") born (" + ONE + rb") (?:live|ended (" + ONE + rb"))(?: layer (" + NAME + rb"))?(?: from ((?:"
                 + NAME + rb" ?)+))?")
PARCEL = re.compile(rb"= parcel (" + NAME + rb")")
LEVEL = re.compile(rb"= level (0|" + ONE + rb") (" + NAME + rb")")
PIECE = re.compile(rb"= piece(?: " + ONE + rb")+")

# The causes with which a line of each command may be refused; those of lines that are no commands, `unknown` and `limit` apart.
CAUSES = {
    "let": "known X", "rcc": "emptyregion n", "register": "known X|empty|overlaps X", "cut": "known X|same|emptyside n",
    "subdivide": "few|known X|repeated X|emptychild n|outside n|childrenoverlap n n|gap", "consolidate": "few|repeated X|layers X|known X",
    "access": "layers X",
}
# Which commands may name what is not there, and which may meet a limit.
NO_UNKNOWN = {"at", "asof", "audit", "list", "layer"}
NO_LIMIT = {"member", "retire", "at", "asof", "list", "history", "layer"}
YES = ["member", "empty", "equal", "within", "overlap", "contact"]
OK = ["let", "register", "cut", "subdivide", "consolidate", "retire", "layer"]
RELATIONS = {"DC", "EC", "PO", "EQ", "TPP", "NTPP", "TPPi", "NTPPi"}


@dataclass(frozen=True)
class Refused:
    """A refusal: its cause, and the names or numbers behind it."""

    cause: str
    told: tuple[str, ...]


@dataclass(frozen=True)
class Lot:
    """A lot line. `ended` is None for a live lot."""

    id: str
    born: int
    ended: Optional[int]
    layer: str
    origins: tuple[str, ...]


@dataclass(frozen=True)
class Answer:
    """One answer: the line of the report at which it begins, the version, the number and the text of its line (None where that
    is too long to be echoed), its command (None where the line is none), its proof lines as they stand, and its verdict.

    The verdict is a `Refused`; or a word (`yes`, `ok`, `PO`); or for `show` the half-spaces of each part, for
    `section` for each part the corners of its ring or None where it is flat, for `list` and `history` lots, for `at`
    and `asof` an id, or None for `nobody`, for `neighbours` and `access` ids, for `pieces` numbers of parts, and for `audit` a number."""

    at: int
    version: int
    number: int
    text: Optional[str]
    command: Optional[command.Command]
    proof: tuple[bytes, ...]
    verdict: Any

    @property
    def parsed(self) -> Command:
        """Returns the command of a line that has one, as each line that is not refused has."""
        assert self.command is not None
        return self.command


def tuples(line: bytes) -> tuple[tuple[int, ...], ...]:
    """Returns the numbers of a `line`, bracket by bracket."""
    return tuple(tuple(map(int, numbers.split())) for numbers in NUMBERS.findall(line))


class Lines:
    """The lines of a report, with one that can be looked at before it is taken."""

    def __init__(self, file: BinaryIO):
        self.file, self.number, self.bytes = file, 0, 0
        self.next: Optional[bytes] = None
        self.take()

    def take(self) -> Optional[bytes]:
        line, read = self.next, self.file.readline(MOST + 2)
        self.bytes += len(read)
        if self.bytes > MOST:
            raise Fault(f"the report has more than {MOST:,} bytes", 6, "name its script in its place")
        self.next = read[:-1] if read.endswith(b"\n") else read or None
        self.number += line is not None
        return line

    def begins(self, front: bytes) -> bool:
        """Returns whether there is a next line, which begins with `front`."""
        return self.next is not None and self.next.startswith(front)

    def wrong(self, said: str) -> NoReturn:
        """Returns the next line cannot stand there."""
        raise Fault(f"line {self.number + 1} of the report: {said}", 1, AGAIN)

    def due(self, pattern: re.Pattern[bytes], what: str) -> re.Match[bytes]:
        """Takes the next line, which must have the form of a `pattern`: it is called `what`."""
        if self.next is None:
            self.wrong(f"it ends in an answer; {what} is due here")
        found = pattern.fullmatch(self.next)
        if not found:
            self.wrong(f"{what} is due here")
        self.take()
        return found


SHAPES = {"X": NAME.decode(), "n": ONE.decode()}


def fits(cause: str, told: list[str]) -> bool:
    """Returns whether a refusal is one of `cause`, in which X stands for a name and n for a number."""
    shapes = [SHAPES.get(each, each) for each in cause.split()]
    return len(shapes) == len(told) and all(map(re.fullmatch, shapes, told))


def refused(lines: Lines, parsed: Optional[command.Command], fault: str) -> Refused:
    """Returns the refusal of a line that has a command, `parsed`, or a `fault`."""
    told = (lines.next or b"")[len(b"= refused "):].decode("utf-8", "replace").split(" ")
    word = parsed.word if parsed else ""
    may = [fault] if fault else CAUSES.get(word, "").split("|")
    may += ["unknown X"] if parsed and word not in NO_UNKNOWN else []
    may += ["limit"] if parsed and word not in NO_LIMIT else []
    if not any(fits(cause, told) for cause in may if cause):
        lines.wrong("this line of the script is not refused so")
    lines.take()
    return Refused(told[0], tuple(told[1:]))


def counted(lines: Lines, word: bytes, item: re.Pattern[bytes], what: str) -> Iterator[re.Match[bytes]]:
    """Returns `= word k` and then k lines, each of the form of an item."""
    found = lines.due(re.compile(b"= " + word + rb" (0|" + ONE + rb")"), f"the line `= {word.decode()}` with a number")
    return (lines.due(item, what) for _ in range(int(found[1])))


def slices(lines: Lines) -> tuple[Optional[tuple[tuple[int, ...], ...]], ...]:
    """Returns for each part the corners of its ring, which go round it once, or None if it is flat."""
    rings = []
    for found in counted(lines, b"sections", SLICE, "a line that shows a slice"):
        ring = tuples(found[0])[1::2] if found[0].startswith(b"= ring") else None
        if ring and not outline.is_convex([points.lowest((x, y, w)) for x, y, _, w in ring]):
            raise Fault(f"line {lines.number} of the report: its ends do not go once round a convex area", 1, AGAIN)
        rings.append(ring)
    return tuple(rings)


def lot_lines(lines: Lines, word: bytes) -> tuple[Lot, ...]:
    return tuple(Lot(found[1].decode(), int(found[2]), int(found[3]) if found[3] else None, (found[4] or b"base").decode(),
                     tuple((found[5] or b"").decode().split())) for found in counted(lines, word, LOT, "a lot line"))


def accepted(lines: Lines, parsed: command.Command) -> Any:
    """Returns the verdict of a command that was not refused."""
    word = parsed.word

    def one_of(*words: bytes) -> str:
        return lines.due(re.compile(b"= (" + b"|".join(map(re.escape, words)) + b")"), "a verdict of this command")[1].decode()

    if word in YES:
        return one_of(b"yes", b"no")
    if word in OK:
        return one_of(b"ok")
    if word == "rcc":
        return one_of(*(relation.encode() for relation in sorted(RELATIONS)))
    if word == "show":
        return tuple(tuples(found[0]) for found in counted(lines, b"parts", PART, "a line with a part"))
    if word == "section":
        return slices(lines)
    if word == "pieces":
        return tuple(tuple(map(int, found[0].split()[2:])) for found in counted(lines, b"pieces", PIECE, "a line with a piece"))
    if word in ("at", "asof"):
        found = lines.due(re.compile(PARCEL.pattern + b"|= (nobody)"), "a parcel or `nobody`")
        return found[1].decode() if found[1] else None
    if word == "neighbours":
        return tuple(found[1].decode() for found in counted(lines, b"neighbours", PARCEL, "a parcel"))
    if word in ("list", "history"):
        return lot_lines(lines, b"parcels" if word == "list" else b"lots")
    if word == "audit":
        return int(lines.due(re.compile(rb"= clear (0|" + ONE + rb")"), "the line `= clear` with a number")[1])
    found = lines.due(re.compile(rb"= (?:noaccess|access (0|" + ONE + rb"))"), "the line `= access` or `= noaccess`")
    chain = [lines.due(PARCEL, "a parcel")[1].decode() for _ in range(int(found[1]) + 1)] if found[1] else []
    while lines.begins(b"= level"):
        lines.due(LEVEL, "a level")
    return tuple(chain)


def echoed(lines: Lines, version: int, last: int) -> tuple[int, Optional[str], Optional[command.Command], str]:
    """Returns the number and the text of an echo, which stands after that of the line `last`; and its command, or its fault."""
    found = ECHO.fullmatch(lines.next or b"")
    if not found:
        lines.wrong("an echo, `> ` and a number, is due here")
    number, told = int(found[1]), found[2]
    if number <= last:
        lines.wrong("its number does not rise")
    if told is not None and len(told) > LONG[version]:
        lines.wrong("an echo so long shows its number alone")
    lines.take()
    if told is None:
        return number, None, None, "long"
    text = told.decode("utf-8", "replace")
    try:
        return number, text, command.read(text, version), ""
    except command.Refusal as refusal:
        return number, text, None, refusal.cause


def answer(lines: Lines, version: int, last: int) -> Answer:
    """Returns the answer that begins with the next line, after the one of the line `last` of a script."""
    at = lines.number + 1
    number, text, parsed, fault = echoed(lines, version, last)
    proof = []
    while lines.begins(b"  "):
        proof.append(lines.due(PROOF, "a proof line")[0])
    verdict: Any
    if lines.begins(b"= refused "):
        verdict = refused(lines, parsed, fault)
    elif parsed:
        verdict = accepted(lines, parsed)
    else:
        verdict = lines.due(re.compile(b"= refused " + fault.encode()), f"since its line of the script is no command, `= refused {fault}`")
    return Answer(at, version, number, text, parsed, tuple(proof), verdict)


def read(file: BinaryIO) -> Iterator[Answer]:
    """Yields the answers of a report, one after the other."""
    lines = Lines(file)
    version, last = 1, 0
    if lines.next == b"> 0 rp 2":
        lines.take()
        version = 2
    while lines.next is not None:
        found = answer(lines, version, last)
        last = found.number
        yield found
