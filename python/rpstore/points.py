"""Exact points of a plan and of space. Nothing here is rounded.

A point of space is (x, y, z, w), whole numbers in lowest terms with w above 0, for (x/w, y/w, z/w); a point of a plan is
(x, y, w). A ring is a list of points in turn, in which the first one is not said again.
"""
from __future__ import annotations

from fractions import Fraction
from math import gcd
from typing import Iterable, Iterator, Sequence, TypeVar, Union

Point = tuple[int, ...]
Number = Union[int, Fraction]
Ring = list[Point]
# The least and the greatest number on each axis.
Box = tuple[tuple[Number, ...], tuple[Number, ...]]
Item = TypeVar("Item")


def lowest(numbers: Sequence[int]) -> Point:
    """Returns the `numbers` divided by their greatest common divisor."""
    divisor = gcd(*numbers)
    return tuple(number // divisor for number in numbers) if divisor > 1 else tuple(numbers)


def ratio(number: int, divisor: int) -> Number:
    """Returns the exact quotient of `number` and `divisor`: with integers Python is ten times as fast as with fractions."""
    return number if divisor == 1 else Fraction(number, divisor)


def edges(ring: Sequence[Item]) -> Iterator[tuple[Item, Item]]:
    """Returns each corner of `ring` with the next one."""
    return zip(ring, [*ring[1:], *ring[:1]])


def between(p: Point, q: Point, at_p: int, at_q: int) -> Point:
    """Returns the point of the edge from `p` to `q` at which a linear number is 0 that is `at_p` and `at_q`, of two signs, at its ends."""
    if at_p < 0:
        at_p, at_q = -at_p, -at_q
    return lowest([at_p * b - at_q * a for a, b in zip(p, q)])


def clipped(polygon: Ring, values: Sequence[int]) -> Ring:
    """Returns what the convex `polygon` has where a linear number is not below 0 that has these `values` at its corners."""
    kept = []
    for (p, q), (at, after) in zip(edges(polygon), edges(list(values))):
        if at >= 0:
            kept.append(p)
        if at > 0 > after or at < 0 < after:
            kept.append(between(p, q, at, after))
    return kept


def box_of(points: Sequence[Point]) -> Box:
    """Returns the box round `points`."""
    axes = [[ratio(point[axis], point[-1]) for point in points] for axis in range(len(points[0]) - 1)]
    return tuple(map(min, axes)), tuple(map(max, axes))


def box_round(boxes: Iterable[Box]) -> Box:
    """Returns the box round `boxes`, of which there is one at least."""
    lows, highs = zip(*boxes)
    return tuple(map(min, zip(*lows))), tuple(map(max, zip(*highs)))


def overlap(one: Box, other: Box) -> bool:
    """Returns whether two boxes have more in common than a boundary."""
    (low, high), (least, most) = one, other
    return all(a < d and c < b for a, b, c, d in zip(low, high, least, most))
