"""The commands of docs/language.md as a table, and which word of a line is the first that does not fit."""
import functools
import re
from dataclasses import dataclass, field
from typing import Callable, NoReturn, Optional

WHOLE = re.compile("0|-?[1-9][0-9]*")
DECIMAL = re.compile(r"-?(?:0|[1-9][0-9]*)\.[0-9]{3}")
NAME = re.compile("[A-Za-z][A-Za-z0-9_.-]{0,31}")
MOST_NODES = 1024
# No bound has more digits; Python reads no number of more than 4,300.
MOST_DIGITS = 40


@dataclass(frozen=True)
class Due:
    """What is due in a place. Of a number also its bounds, in units, and whether it is a coordinate, which version 2 spells as
    a decimal."""

    what: str
    least: int = 0
    most: Optional[int] = None
    is_coordinate: bool = False

    def is_decimal(self, version: int) -> bool:
        return self.is_coordinate and version == 2


AN_EXPRESSION, A_COMMAND, EQUALS, THE_END = Due("an expression"), Due("a command"), Due("`=`"), Due("the end of the line")
HALF = [*(Due(f"{letter} of half", -2**24, 2**24) for letter in "ABC"), Due("D of half", -3 * 2**48, 3 * 2**48)]
BOX = [Due(f"{side} of box", -2**24, 2**24, True) for side in ("x1", "y1", "z1", "x2", "y2", "z2")]
HEIGHTS = [Due(f"{height} of prism", -2**24, 2**24, True) for height in ("z1", "z2")]
CORNERS = Due("the count of corners", 3, 256)
POINT = [*(Due(f"{axis} of the point", 1 - 2**101, 2**101 - 1, True) for axis in "xyz"), Due("the weight of the point, mostly 1,", 1, 2**75 - 1)]
SECTION = Due("the height of the section", -2**24, 2**24 - 1, True)
LINE = Due("the number of a line", 0, 2**24)
CHILDREN, LOTS = Due("the count of children", 0, 1024), Due("the count of lots", 0, 65536)
# The words that begin a node of an expression, and how many expressions each has behind it.
NODES = {"half": 0, "box": 0, "prism": 0, "all": 0, "none": 0, "and": 2, "or": 2, "minus": 2, "not": 1, "name": 0, "lot": 0}
# The places of each command: methods of `Reader`.
COMMANDS = {
    "member": "expression point", "let": "name equals expression", "empty": "expression", "show": "expression",
    "equal": "expression expression", "within": "expression expression", "overlap": "expression expression",
    "contact": "expression expression", "rcc": "expression expression", "pieces": "expression", "section": "expression height",
    "register": "id expression", "cut": "id expression id id", "subdivide": "id children", "consolidate": "id lots", "retire": "id",
    "at": "point", "asof": "line point", "neighbours": "id", "access": "id id", "audit": "", "list": "", "history": "id", "layer": "name",
}


@functools.lru_cache(maxsize=None)
def corners(count: int) -> list[Due]:
    return [Due(f"{axis} of corner {corner} of {count}", -2**23, 2**23, True) for corner in range(1, count + 1) for axis in "xy"]


def spelled(units: int) -> str:
    """Returns a coordinate in units as version 2 spells it."""
    return f"{'-' if units < 0 else ''}{abs(units) // 1000}.{abs(units) % 1000:03d}"


def speller(version: int) -> Callable[[int], str]:
    """Returns how a script of a `version` spells a coordinate in units."""
    if version == 2:
        return spelled
    return str


class Refusal(Exception):
    """The first fault of a line: its cause, the words of the line, the place of the word that does not fit, from 0, and what is
    due there."""

    def __init__(self, cause: str, words: list[str], place: int, due: Due):
        super().__init__(f"{cause} at word {place + 1}")
        self.cause, self.words, self.place, self.due = cause, words, place, due

    @property
    def word(self) -> Optional[str]:
        """Returns the word that does not fit, or None if the line ends before it."""
        return self.words[self.place] if self.place < len(self.words) else None


@dataclass
class Command:
    """A line that reads as a command: its words; the names and ids in its own places, in order; where each expression begins
    and ends in the words; what the expressions name, as `name` or `lot` and the name or the id; the numbers of its point,
    height or line, in units."""

    words: list[str]
    names: list[str] = field(default_factory=list)
    named: list[tuple[str, str]] = field(default_factory=list)
    expressions: list[tuple[int, int]] = field(default_factory=list)
    numbers: list[int] = field(default_factory=list)

    @property
    def word(self) -> str:
        return self.words[0]

    def expression(self, place: int = 0) -> str:
        """Returns the text of the expression at a place, from 0."""
        begin, end = self.expressions[place]
        return " ".join(self.words[begin:end])


class Reader:
    """Reads the words of one line, each in its place."""

    def __init__(self, line: str, version: int):
        self.words, self.version = line.split(" "), version
        self.at, self.nodes = 0, 0
        self.found = Command(self.words)

    def fault(self, cause: str, due: Due, before: int = 0) -> NoReturn:
        raise Refusal(cause, self.words, self.at - before, due)

    def word(self) -> str:
        return self.words[self.at] if self.at < len(self.words) else ""

    def number(self, due: Due) -> int:
        word = self.word()
        if not (DECIMAL if due.is_decimal(self.version) else WHOLE).fullmatch(word) or word == "-0.000":
            self.fault("syntax", due)
        digits = word.replace(".", "")
        if len(digits) > MOST_DIGITS or int(digits) < due.least or due.most is not None and int(digits) > due.most:
            self.fault("range", due)
        self.at += 1
        return int(digits)

    def label(self, what: str) -> str:
        if not NAME.fullmatch(self.word()):
            self.fault("syntax", Due(what))
        self.at += 1
        return self.words[self.at - 1]

    def prism(self) -> None:
        for due in HEIGHTS:
            self.number(due)
        for due in corners(self.number(CORNERS)):
            self.number(due)

    def half(self) -> None:
        if not any([self.number(due) for due in HALF]):
            self.fault("zero", HALF[-1], before=1)

    def node(self) -> int:
        """Reads one word of an expression with its numbers or names, and returns how many expressions follow."""
        word = self.word()
        if word not in NODES:
            self.fault("syntax", AN_EXPRESSION)
        self.nodes += 1
        if self.nodes > MOST_NODES:
            self.fault("nodes", AN_EXPRESSION)
        self.at += 1
        if word == "half":
            self.half()
        elif word == "box":
            for due in BOX:
                self.number(due)
        elif word == "prism":
            self.prism()
        elif word in ("name", "lot"):
            self.found.named.append((word, self.label("a name" if word == "name" else "the id of a lot")))
        return NODES[word]

    # ---- the places of a command

    def expression(self) -> None:
        begin, wanted = self.at, 1
        while wanted:
            wanted += self.node() - 1
        self.found.expressions.append((begin, self.at))

    def equals(self) -> None:
        if self.word() != "=":
            self.fault("syntax", EQUALS)
        self.at += 1

    def name(self) -> None:
        self.found.names.append(self.label("a name"))

    def id(self) -> None:
        self.found.names.append(self.label("the id of a lot"))

    def point(self) -> None:
        self.found.numbers += [self.number(due) for due in POINT]

    def height(self) -> None:
        self.found.numbers.append(self.number(SECTION))

    def line(self) -> None:
        self.found.numbers.append(self.number(LINE))

    def children(self) -> None:
        count = self.number(CHILDREN)
        for child in range(1, count + 1):
            self.found.names.append(self.label(f"the id of child {child} of {count}"))
            self.expression()

    def lots(self) -> None:
        count = self.number(LOTS)
        for lot in range(1, count + 1):
            self.found.names.append(self.label(f"the id of lot {lot} of {count}"))

    def command(self) -> Command:
        if self.word() not in COMMANDS:
            self.fault("syntax", A_COMMAND)
        self.at = 1
        for place in COMMANDS[self.words[0]].split():
            getattr(self, place)()
        if self.at < len(self.words):
            self.fault("syntax", THE_END)
        return self.found


def read(line: str, version: int) -> Command:
    """Returns the command of a line, or its first fault, which is raised as a `Refusal`."""
    return Reader(line, version).command()
