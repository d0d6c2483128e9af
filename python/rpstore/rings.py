"""Rings of a plan as prisms: the same points, to the millimetre, within the bounds of a script."""
from decimal import ROUND_HALF_UP, Decimal
from typing import Callable, Iterable, Sequence, Union

from .command import BOX, CORNERS, spelled, corners as corner_places

Corner = tuple[int, int]
Number = Union[int, float, Decimal]
# The bounds of a script, lengths in units.
MOST_CORNERS, MOST_CORNER, MOST_SIDE = CORNERS.most or 0, corner_places(CORNERS.least)[0].most or 0, BOX[0].most or 0
MILLI = Decimal("0.001")


class Unfit(Exception):
    """Why a feature cannot be registered: a cause that others may have too, what of this one shows it, and what to do."""

    def __init__(self, cause: str, seen: str = "", remedy: str = ""):
        super().__init__(f"{cause}: {seen}" if seen else cause)
        self.cause, self.seen, self.remedy = cause, seen, remedy

    @property
    def advice(self) -> str:
        """Returns the cause, and what to do."""
        return f"{self.cause}; {self.remedy}" if self.remedy else self.cause


def units(number: Number) -> int:
    """Returns the nearest integer of thousandths of a number as it is written; a half goes away from zero."""
    number = number if isinstance(number, Decimal) else Decimal(repr(number))
    return int(number.quantize(MILLI, ROUND_HALF_UP).scaleb(3))


def rounded(points: Iterable[Sequence[float]]) -> tuple[int, int]:
    """Returns how many coordinates of `points` are no integer of thousandths, and how many there are."""
    numbers = [Decimal(repr(number)) for point in points for number in point]
    return sum(number != number.quantize(MILLI) for number in numbers), len(numbers)


def side(a: Corner, b: Corner, c: Corner) -> int:
    """Returns above 0 where the way from a over b to c turns left, and 0 where it goes straight on or back."""
    return (b[0] - a[0]) * (c[1] - a[1]) - (b[1] - a[1]) * (c[0] - a[0])


def placed(ring: Sequence[Sequence[Number]], origin: Corner, name: str) -> list[Corner]:
    """Returns the corners of a ring in units from an origin, without its last point and without corners that repeat
    the previous corner."""
    if ring[0] != ring[-1]:
        raise Unfit("a ring is open: it does not end with the point at which it begins", name, "end it with this point")
    corners: list[Corner] = []
    for point in ring[:-1]:
        corner = units(point[0]) - origin[0], units(point[1]) - origin[1]
        if max(abs(number) for number in corner) > MOST_CORNER:
            raise Unfit(f"a corner is more than {spelled(MOST_CORNER)} m east, west, north or south of the origin", f"{name} at {point[0]} {point[1]}",
                        "give --origin E N near it, or divide the plan")
        if corners[-1:] != [corner]:
            corners.append(corner)
    while len(corners) > 1 and corners[0] == corners[-1]:
        corners.pop()
    if not any(side(corners[0], corner, after) for corner, after in zip(corners, corners[1:])):
        raise Unfit("a ring has no area, to the millimetre", name, "remove it, or correct its corners")
    return corners


def without_runs(ring: list[Corner], is_far: Callable[[Corner], bool]) -> list[Corner]:
    """Returns the ring without the corners that are far and have far ones before and after them. Edges between far
    corners do not come near, so what is near has as many edges above it as before."""
    return [at for before, at, after in zip(ring[-1:] + ring[:-1], ring, ring[1:] + ring[:1])
            if not (is_far(before) and is_far(at) and is_far(after))]


def slabs(ring: list[Corner], low: int = -MOST_SIDE, high: int = MOST_SIDE) -> list[tuple[int, int, list[Corner]]]:
    """Returns the ring as one that tells the members from x = low to below x = high, or cut further where it has too many corners."""
    ring = without_runs(without_runs(ring, lambda at: at[0] <= low), lambda at: at[0] >= high)
    if len(ring) <= MOST_CORNERS:
        return [(low, high, ring)] if len(ring) > 2 else []
    inside = sorted(at[0] for at in ring if low < at[0] < high)
    if not inside:
        raise Unfit(f"more than {MOST_CORNERS} corners are needed at one x: no cut along x helps", f"x {spelled(low)}", "divide the polygon")
    middle = inside[len(inside) // 2]
    return slabs(ring, low, middle) + slabs(ring, middle, high)


def joined(word: str, operands: list[str]) -> str:
    """Expressions joined by a word, from the first on."""
    return " ".join([word] * (len(operands) - 1) + operands)


def prism(ring: list[Corner], heights: tuple[int, int]) -> str:
    """Returns the members of a ring between two heights: a prism, or prisms in slabs, which have exactly the same points."""
    pieces = []
    for low, high, corners in slabs(ring):
        numbers = " ".join(f"{spelled(x)} {spelled(y)}" for x, y in corners)
        whole = f"prism {' '.join(map(spelled, heights))} {len(corners)} {numbers}"
        box = " ".join(map(spelled, (low, -MOST_SIDE, heights[0], high, MOST_SIDE, heights[1])))
        pieces.append(whole if len(corners) == len(ring) else f"and box {box} {whole}")
    return joined("or", pieces)


def expression(polygons: list[list[list[Corner]]], heights: tuple[int, int]) -> str:
    """Polygons between two heights, each the outer ring less its holes."""
    return joined("or", [joined("minus", [prism(ring, heights) for ring in rings]) for rings in polygons])
