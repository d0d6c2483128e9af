"""Solids as expressions of the language: prisms if all faces are upright or level, otherwise their convex parts."""
from __future__ import annotations

from fractions import Fraction
from typing import Iterable, Iterator, Optional, Sequence

from . import outline, rings
from .command import MOST_NODES, NAME, NODES, spelled
from .points import Ring, box_of, lowest
from .report import LONG
from .rings import Unfit
from .shape import Cell, Half
from .solid import CROSSED, Piece

Box = tuple[list[int], list[int]]
# A command, a name or an id, and a sign before an expression have no more bytes.
LONGEST_FRONT = 50
# A region of the store has so many parts.
MOST_PARTS = 1024


def whole_box(cell: Cell) -> Box:
    """Returns the least box with integer corner coordinates that contains a part."""
    low, high = cell.box
    return [int(each // 1) for each in low], [int(-(-each // 1)) for each in high]


def is_side(half: Half) -> bool:
    """Returns whether the plane of a face of the part contains a side of the part's least box with integer corner coordinates."""
    found = lowest(half)
    return sorted(abs(number) for number in found[:3]) == [0, 0, 1]


def part(cell: Cell) -> str:
    """Returns a convex part as its box and the half-spaces that the box does not have."""
    box = whole_box(cell)
    sides = f"box {' '.join(spelled(number) for end in box for number in end)}"
    halves = [f"half {' '.join(map(str, lowest(half)))}" for half in cell.halves if not is_side(half)]
    return rings.joined("and", [sides, *halves])


# ---- prisms

def is_level(half: Half) -> bool:
    return not (half[0] or half[1])


def levels(pieces: Sequence[Piece]) -> Optional[list[int]]:
    """Returns the heights of the level faces of a solid from above, or None if a face is neither upright nor level or
    a height is not an integer."""
    found = set()
    for half, _ in pieces:
        if half[2] and not is_level(half) or is_level(half) and half[3] % half[2]:
            return None
        if is_level(half):
            found.add(-half[3] // half[2])
    return sorted(found, reverse=True)


def in_plan(piece: Piece) -> Ring:
    """Returns a level piece in plan, counterclockwise."""
    ring = [lowest((x, y, w)) for x, y, _, w in piece.polygon]
    return ring if piece.half[2] < 0 else ring[::-1]


def area(section: list[Ring]) -> Fraction:
    return sum(map(outline.area, section), Fraction(0))


def without_all(section: list[Ring], ends: list[Ring]) -> list[Ring]:
    """Returns what is left of a section outside areas that are all in it."""
    left = outline.without(section, [(each, box_of(each)) for each in ends])
    if area(section) - area(left) != area(ends):
        raise Unfit(CROSSED)
    return left


def slabs(pieces: Sequence[Piece], heights: list[int]) -> Iterator[tuple[int, int, list[Ring]]]:
    """Yields from above what a solid of upright and level faces has between two neighbouring `heights`, as convex polygons that
    share no area.

    # Errors
    `Unfit` if the faces do not go once round each point of the solid. Upright faces do not count: no line upwards meets one.
    """
    section: list[Ring] = []
    for at, top in enumerate(heights):
        level = [piece for piece in pieces if is_level(piece.half) and -piece.half[3] == top * piece.half[2]]
        section = without_all(section, [in_plan(piece) for piece in level if piece.half[2] > 0])
        section += [in_plan(piece) for piece in level if piece.half[2] < 0]
        if area(outline.apart(section)) != area(section) or section and top == heights[-1]:
            raise Unfit(CROSSED)
        if section:
            yield heights[at + 1], top, section


def prisms(pieces: Sequence[Piece]) -> Optional[list[str]]:
    """Returns a solid of upright and level faces with integer corners as prisms, one for each outline between two
    heights; None if the solid is of another kind."""
    heights, found = levels(pieces), []
    if heights is None:
        return None
    for low, top, section in slabs(pieces, heights):
        for outer, holes in outline.outlines(section):
            if any(point[2] != 1 for ring in (outer, *holes) for point in ring):
                return None
            found.append(rings.expression([[[(x, y) for x, y, _ in ring] for ring in (outer, *holes)]], (low, top)))
    return found


# ---- lines

def words(expression: str) -> int:
    """Returns how many words of an expression count for the bound of a line."""
    return sum(word in NODES for word in expression.split(" "))


def grouped(operands: Iterable[str]) -> list[list[str]]:
    """Returns expressions in groups, each of which fits a line when it is joined."""
    found: list[list[str]] = []
    left, room = 0, 0
    for each in operands:
        if words(each) + 1 > left or len(each) + 3 > room:
            found.append([])
            left, room = MOST_NODES + 1, LONG[2] - LONGEST_FRONT
        found[-1].append(each)
        left, room = left - words(each) - 1, room - len(each) - 3
    return found


def lines(name: str, operands: list[str]) -> list[str]:
    """Returns the lines that register the union of some expressions: one line, or names by `let` before it if it would be too long.

    # Errors
    `Unfit` if there are too many, if one fits no line, or if a name is too long.
    """
    if len(operands) > MOST_PARTS:
        raise Unfit(f"more than {MOST_PARTS} parts", str(len(operands)), "divide the solid in the model")
    groups = [rings.joined("or", group) for group in grouped(operands)]
    if any(words(group) > MOST_NODES or len(group) > LONG[2] - LONGEST_FRONT for group in groups):
        raise Unfit(f"a part has more than {MOST_NODES} words or {LONG[2] - LONGEST_FRONT} bytes", remedy="divide the solid in the model")
    if len(groups) == 1:
        return [f"register {name} {groups[0]}"]
    names = [f"{name}.{number}" for number in range(1, len(groups) + 1)]
    if not all(map(NAME.fullmatch, names)):
        raise Unfit(f"its lines have more than {MOST_NODES} words, and its id is too long for the names of its parts", name, "give it an id of at most 27 letters")
    return [f"let {each} = {group}" for each, group in zip(names, groups)] + [f"register {name} {rings.joined('or', [f'name {each}' for each in names])}"]
