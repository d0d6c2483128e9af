"""A table of areas and volumes, which are exact until they are printed: to the square and the cubic millimetre."""
from __future__ import annotations

from fractions import Fraction
from typing import Iterator

from . import told
from .lots import Seen

HEAD = ("what", "layer", "line", "from_m", "to_m", "area_m2", "volume_m3")


def rows(seen: Seen) -> Iterator[tuple[object, ...]]:
    """Yields for each body how it is called, its layer, the line at which it came, its lowest and highest points in
    metres, its area in plan and its volume; for each slice the same of its height, without a volume."""
    for body in seen.bodies:
        if body.is_bounded:
            low, high = (told.decimal(Fraction(end[2]) / 1000, 3) for end in body.box)
            area, volume = told.decimal(body.area / 10**6, 6), told.decimal(body.volume / 10**9, 9)
            yield body.label, body.layer, body.born, low, high, area, volume
    for each in seen.slices:
        if each.is_bounded:
            height = told.decimal(Fraction(each.height, 1000), 3)
            yield each.label, each.layer or "", each.number, height, height, told.decimal(each.area / 10**6, 6), ""


def table(seen: Seen) -> str:
    """Returns the rows as comma-separated values. No name, layer or expression has a comma."""
    found = list(rows(seen))
    if not found:
        raise seen.without("no lot, no region with an end and no section")
    return "".join(",".join(map(str, row)) + "\n" for row in (HEAD, *found))
