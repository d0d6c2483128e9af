"""Where a word fits into an area of a picture. Rings are lists of pairs (x, y), in any unit; holes are rings too."""
from __future__ import annotations

from typing import Iterator, Optional, Sequence

from .points import edges

Corners = Sequence[tuple[float, float]]
Area = tuple[float, float, float, float]
# In how many heights of an area a word is tried, and how wide a letter is, in heights of the letters.
TRIED, LETTER = 17, 0.62


def gaps(rings: Sequence[Corners], low: float, high: float) -> Iterator[tuple[float, float]]:
    """Yields the stretches (from x, to x) within which a band from `low` to `high` in y lies inside `rings`: no edge comes into it."""
    middle, walls = (low + high) / 2, []
    for (px, py), (qx, qy) in (edge for ring in rings for edge in edges(ring)):
        if py > qy:
            px, py, qx, qy = qx, qy, px, py
        if qy <= low or py >= high:
            continue
        ends = [px + (qx - px) * (y - py) / (qy - py) if qy > py else x for y, x in ((max(py, low), px), (min(qy, high), qx))]
        walls.append((min(ends), max(ends), py <= middle < qy))
    inside, reached = False, float("-inf")
    for begin, end, crosses in sorted(walls):
        if inside and begin > reached:
            yield reached, begin
        inside ^= crosses
        reached = max(reached, end)


def box_of(rings: Sequence[Corners]) -> Area:
    """Returns least x and y, and greatest x and y."""
    xs, ys = zip(*(point for ring in rings for point in ring))
    return min(xs), min(ys), max(xs), max(ys)


def clear(box: Area, taken: list[Area]) -> bool:
    """Returns whether a `box` overlaps none of the boxes that are `taken`."""
    return not any(box[0] < other[2] and other[0] < box[2] and box[1] < other[3] and other[1] < box[3] for other in taken)


def room(rings: Sequence[Corners], width: float, height: float, taken: list[Area]) -> Optional[Area]:
    """Returns the box of a word of this `width` and `height` inside `rings`, as near to their middle as it finds one,
    that overlaps no box of those that are `taken`; or None."""
    west, south, east, north = box_of(rings)
    if east - west < width or north - south < height:
        return None
    step = (north - south - height) / (TRIED - 1)
    for place in sorted(range(TRIED), key=lambda place: abs(2 * place - TRIED + 1)):
        low = south + place * step
        for begin, end in sorted(gaps(rings, low, low + height), key=lambda gap: gap[0] - gap[1]):
            if end - begin < width:
                break
            left = (begin + end - width) / 2
            box = left, low, left + width, low + height
            if clear(box, taken):
                return box
    return None
