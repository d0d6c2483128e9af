"""Where a script lies on the map: its grid and its local origin, which stand in one note at its head:

    # Grid: EPSG:25832. Local origin: E 412000, N 5765000.

`plan` writes this note. Other spellings are read too: grid and origin in two notes, in either order, N before E, with or
without full stops. Every coordinate on the map depends on these numbers, so what reads in two ways is refused.
"""
from __future__ import annotations

import io
import re
from dataclasses import dataclass
from decimal import Decimal
from fractions import Fraction
from typing import Callable, Iterable, Iterator, Optional, Protocol, Sequence, TypeVar

from . import Fault, notes
from .points import Number

# A note, after the number of its line in the file, from 1.
Note = tuple[int, str]
Origin = tuple[Decimal, Decimal]
Value = TypeVar("Value")


class Given(Protocol):
    """What the words of the command line say of the place, in metres."""

    @property
    def origin(self) -> Optional[Sequence[Decimal]]:
        """Returns the local origin."""

    @property
    def epsg(self) -> Optional[int]:
        """Returns the number of the grid."""



FORM = "`# Grid: EPSG:25832. Local origin: E 412000, N 5765000.`"
IN_PLACE = "in its own line, so that no other line gets another number"
# A longer note is prose. Patterns take a time that grows with the square of its length.
LONGEST = 1000
# Where a note begins to name the origin. Without the word `local` it may speak of the origin of a lot.
MARK = re.compile(r"\b(?P<local>local\s+)?origin\b(?:\s*\([^()0-9]*\))?(?P<sign>\s*[:=])?(?:\s+(?:is|lies|at)\b)*\s*", re.I)
GRID = re.compile(r"\b(?:grid|CRS)\s*[:=]|\bgrid\s+EPSG\b|\bnames its grid\b|^#\s*EPSG\b", re.I)
EPSG = re.compile(r"\bEPSG[\s:]*([0-9]{4,6})(?![0-9])", re.I)
# The grid of the plan from which a script was made is not that of the script.
SOURCE = re.compile(r"\bprojected from\b.*", re.I)


def decimal_group(name: str) -> str:
    """Returns the pattern of a number with a decimal point and no other separator, as the group `name`."""
    return rf"(?P<{name}>[+-]?[0-9]{{1,9}}(?:\.[0-9]{{1,6}})?)(?![0-9]|[\s.,'\u2019][0-9])"


EAST, NORTH, BETWEEN = r"E(?:ast(?:ing)?)?[\s:=]*", r"N(?:orth(?:ing)?)?[\s:=]*", r"\s*(?:m\b)?\s*[,;/]?\s*(?:and\s+)?"
PAIR = re.compile(rf"\(?\s*(?:{EAST}{decimal_group('east')}{BETWEEN}{NORTH}{decimal_group('north')}"
                  rf"|{NORTH}{decimal_group('first')}{BETWEEN}{EAST}{decimal_group('second')})", re.I)
# After E and N: the height of the origin.
HEIGHT = re.compile(r"[\sm,;.]*\b[HZ][\s:=]*([+-]?[0-9][0-9.,]*)", re.I)
# Numbers of an origin, in whatever spelling.
NUMBERS = re.compile(r"\(?\s*(?:(?:[ENXYRH]|East(?:ing)?|North(?:ing)?)[\s:=]*)?[+-]?[0-9]", re.I)
# Not the ids of lots, as in `origin: n2, e5`.
SPACED = re.compile(r"\(?\s*[EN]\s")
# 412.000 may be 412 m or 412 km, unless the number next to it shows what its writer means by a point.
GROUPED = re.compile(r"[+-]?[1-9][0-9]{0,2}\.[0-9]{3}")
CLEAR = re.compile(r"[+-]?(?:[0-9]{4,}(?:\.[0-9]+)?|0\.[0-9]+|[0-9]+\.(?:[0-9]{1,2}|[0-9]{4,}))")


@dataclass(frozen=True)
class Place:
    """Where units are on the map: the local origin in metres, and the EPSG number of its grid, or None."""

    east: Decimal = Decimal(0)
    north: Decimal = Decimal(0)
    epsg: Optional[int] = None

    @property
    def is_given(self) -> bool:
        return bool(self.east or self.north or self.epsg)

    def metres(self, number: Number, axis: int) -> Fraction:
        """Returns the map coordinate in metres of a coordinate in units."""
        return Fraction(number) / 1000 + Fraction((self.east, self.north, 0)[axis])

    def note(self, no_number: str = "none") -> str:
        """Returns the note that names the place. `no_number` stands for a grid without an EPSG number."""
        grid = f"EPSG:{self.epsg}" if self.epsg else no_number
        return f"# Grid: {grid}. Local origin: E {spelled(self.east)}, N {spelled(self.north)}."


class Unplaced(Fault):
    """Why it is not known where a script lies, and what to do."""

    def __init__(self, why: str, remedy: str):
        super().__init__(f"{why}. Nothing was written. {remedy}.")
        self.why = why


def spelled(number: Decimal) -> str:
    """Spells metres, with the digits after the point that are needed, and never three, which might be read as thousands."""
    text = f"{number:.3f}".rstrip("0").rstrip(".")
    return f"{text}0" if text[-4:-3] == "." else text


# ---- read

def candidates(script: bytes) -> Iterator[Note]:
    """Yields the notes of a script that may name a grid or an origin."""
    for number, line in enumerate(io.BytesIO(script), 1):
        if notes.is_note(line) and len(line) <= LONGEST and any(word in line.lower() for word in (b"origin", b"epsg")):
            yield number, line.decode("utf-8", "replace").strip()


def two_ways(number: int, what: str, remedy: str) -> Unplaced:
    """Returns the refusal of a note that names `what` so that nobody can be sure of it."""
    return Unplaced(f"the note in line {number} of the file names a {what} that does not read in exactly one way",
                    f"Spell the note as {FORM} {IN_PLACE}, or give {remedy}")


def are_clear(numbers: Sequence[str]) -> bool:
    """Returns whether no point in a pair of numbers may stand for thousands."""
    return not any(map(GROUPED.fullmatch, numbers)) or any(map(CLEAR.fullmatch, numbers))


def origin_at(number: int, text: str, mark: re.Match[str], has_grid: bool) -> Optional[Origin]:
    """Returns the origin that a note names after a mark, or None if it speaks of something else there."""
    rest, is_sure = text[mark.end():], mark["local"] or has_grid
    pair = PAIR.match(rest)
    if not (is_sure and (pair or mark["sign"] or NUMBERS.match(rest)) or pair and SPACED.match(rest)):
        return None
    east, north = (pair["east"] or pair["second"], pair["north"] or pair["first"]) if pair else ("", "")
    if not pair or not are_clear((east, north)):
        raise two_ways(number, "local origin", "--origin E N")
    height = HEIGHT.match(rest, pair.end())
    if height and re.search("[1-9]", height[1]):
        raise Unplaced(f"the note in line {number} of the file names a local origin with the height {height[1].rstrip('.,')}, and heights are "
                       "not moved", "Give --origin E N if the heights of the script are those of the map")
    return Decimal(east), Decimal(north)


def origins(found: Iterable[Note]) -> Iterator[tuple[int, Origin]]:
    """Yields each local origin that the notes `found` name, after the number of its line.

    # Errors
    `Unplaced` if an origin does not read in exactly one way, or has a height.
    """
    for number, text in found:
        has_grid = bool(GRID.search(text))
        named = {origin for mark in MARK.finditer(text) if (origin := origin_at(number, text, mark, has_grid)) is not None}
        if len(named) > 1:
            raise two_ways(number, "local origin", "--origin E N")
        yield from ((number, origin) for origin in named)


def grids(found: Iterable[Note]) -> Iterator[tuple[int, int]]:
    """Yields each EPSG number of a grid that the notes `found` name, after the number of its line.

    # Errors
    `Unplaced` if a note has two of them.
    """
    for number, text in found:
        is_place = GRID.search(text) or any(mark["local"] and PAIR.match(text[mark.end():]) for mark in MARK.finditer(text))
        named = {int(epsg) for epsg in EPSG.findall(SOURCE.sub("", text))} if is_place else set()
        if len(named) > 1:
            raise two_ways(number, "grid", "--epsg NUMBER")
        yield from ((number, epsg) for epsg in named)


def agreed(found: list[tuple[int, Value]], what: str, spell: Callable[[Value], str], option: str) -> Optional[Value]:
    """Returns what all notes name, or None if none names anything.

    # Errors
    `Unplaced` if two of them disagree.
    """
    for number, value in found[1:]:
        first, other = found[0]
        if value != other:
            raise Unplaced(f"the notes in lines {first} and {number} of the file name two {what}s, {spell(other)} and {spell(value)}",
                           f"Correct the wrong note {IN_PLACE}, or give {option}")
    return found[0][1] if found else None


def place_of(script: bytes, given: Given) -> Place:
    """Returns where a script lies on the map: by the options `given`, otherwise by its notes, otherwise at E 0, N 0 of no grid.

    # Errors
    `Unplaced` if notes read in two ways or disagree, or if there is a grid without an origin.
    """
    found = [*candidates(script)]
    numbers = [] if given.epsg else [*grids(found)]
    epsg = given.epsg or agreed(numbers, "grid", "EPSG:{}".format, "--epsg NUMBER")
    origin = given.origin or agreed([*origins(found)], "local origin", lambda pair: "E {}, N {}".format(*map(spelled, pair)), "--origin E N")
    if epsg and not origin:
        who = f"the note in line {numbers[0][0]} of the file" if numbers else "--epsg"
        raise Unplaced(f"{who} names the grid EPSG:{epsg}, and nothing names a local origin", (f"Spell the note as {FORM} {IN_PLACE}, or give" if numbers
                       else "Give") + " --origin E N, which is 0 0 if the coordinates of the script are those of the map")
    east, north = origin or (Decimal(0), Decimal(0))
    return Place(east, north, epsg)
