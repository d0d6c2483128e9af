"""A line through whole points of space, straight or with corners, exact: its places, what a convex part has of it, its lengths.

A place is a number from 0 to the count of segments: 2 1/2 is the middle of the third segment.
"""
from __future__ import annotations

import math
from dataclasses import dataclass
from fractions import Fraction
from typing import Iterable, Iterator, Optional, Sequence

from .points import Point, lowest
from .shape import Half, value
from .touch import root

Corner = tuple[int, int, int]
# Two places with nothing but the line between them.
Stretch = tuple[Fraction, Fraction]


def inside(p: Corner, q: Corner, part: Iterable[Half]) -> Optional[Stretch]:
    """Returns what a part has, with its boundary, of the segment from `p` at 0 to `q` at 1; None if that is nothing."""
    begin, end = Fraction(0), Fraction(1)
    for half in part:
        at_p, at_q = value(half, (*p, 1)), value(half, (*q, 1))
        if at_p < 0 and at_q < 0:
            return None
        if at_p < 0:
            begin = max(begin, Fraction(at_p, at_p - at_q))
        elif at_q < 0:
            end = min(end, Fraction(at_p, at_p - at_q))
    return (begin, end) if begin <= end else None


def between(low: Fraction, high: Fraction) -> Fraction:
    """Returns a number between two others, with a denominator that is no more than the sum of theirs."""
    return Fraction(low.numerator + high.numerator, low.denominator + high.denominator)


@dataclass(frozen=True)
class Line:
    """A line from corner to corner, in units. No two corners in turn are one point."""

    corners: Sequence[Corner]

    @property
    def count(self) -> int:
        return len(self.corners) - 1

    def segments(self) -> Iterator[tuple[Corner, Corner]]:
        return zip(self.corners, self.corners[1:])

    def point(self, place: Fraction) -> Point:
        """Returns the point of space at a `place`."""
        at = min(math.floor(place), self.count - 1)
        part, (p, q) = place - at, self.corners[at:at + 2]
        numbers = [a * part.denominator + (b - a) * part.numerator for a, b in zip(p, q)]
        return lowest([*numbers, part.denominator])

    def way(self, begin: Fraction, end: Fraction) -> list[Point]:
        """Returns the points from one place to another: both ends, and the corners between them; one point if both are one."""
        corners = [Fraction(at) for at in range(math.floor(begin) + 1, math.ceil(end))]
        return [self.point(place) for place in dict.fromkeys([begin, *corners, end])]

    def length(self, begin: Fraction, end: Fraction) -> Fraction:
        """Returns the length between two places in units, less than 10^-36 too small: each segment has a square root."""
        found = Fraction(0)
        for at, (p, q) in enumerate(self.segments()):
            share = min(end, Fraction(at + 1)) - max(begin, Fraction(at))
            if share > 0:
                found += share * root(Fraction(sum((b - a) ** 2 for a, b in zip(p, q))))
        return found

    def stations(self, parts: Iterable[Sequence[Half]]) -> list[Fraction]:
        """Returns all places, in order, at which the line may come into one of `parts` or out of it; its corners are among them."""
        found = {Fraction(at) for at in range(self.count + 1)}
        for part in parts:
            for at, (p, q) in enumerate(self.segments()):
                stretch = inside(p, q, part)
                found.update(at + place for place in stretch or ())
        return sorted(found)

    def boxes(self, most: int) -> Iterator[tuple[list[int], list[int]]]:
        """Yields boxes with whole corners, about `most` of them and one for each segment at least, of which each point of the line is
        in one, or on a lower side of it, and on no upper side: their least and their greatest numbers."""
        pieces = max(1, most // self.count)
        for p, q in self.segments():
            # One box is as good as several along an axis.
            count = pieces if sum(a != b for a, b in zip(p, q)) > 1 else 1
            for piece in range(count):
                ends = [sorted(a + Fraction((b - a) * at, count) for at in (piece, piece + 1)) for a, b in zip(p, q)]
                yield [math.floor(low) for low, _ in ends], [math.floor(high) + 1 for _, high in ends]


def middle(begin: Fraction, end: Fraction) -> Fraction:
    """Returns a place between two places of one segment, at a point with a small weight."""
    at = math.floor(begin)
    return at + between(begin - at, end - at)
