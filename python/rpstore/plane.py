"""Planes with whole numbers within the bounds of a `half`: through the corners of a face, or as near to them as may be.

Nothing here is rounded but a plane that is asked for, and how far a corner lies from that is exact. A plane is a half-space
(A, B, C, D); `canonical` names it by the one of its two half-spaces whose first number is above 0.
"""
from __future__ import annotations

from fractions import Fraction
from itertools import combinations
from math import lcm
from typing import Iterable, Iterator, NamedTuple, Sequence

from .command import HALF
from .points import Number, Point, Ring, edges, lowest, ratio
from .shape import Half, turned, value

MOST_NORMAL, MOST_CONSTANT = HALF[0].most or 0, HALF[3].most or 0
# Planes through three of so many corners are tried: of 12 there are 220.
MOST_TRIED = 12


class Fit(NamedTuple):
    """A plane near the corners of a face: how far the furthest corner lies from it in units, measured along the axis on which
    the plane is steepest, and that corner."""

    half: Half
    off: Fraction
    corner: Point

    @property
    def axis(self) -> str:
        return "xyz"[steepest(self.half)]


def steepest(half: Half) -> int:
    """Returns the axis along which a step leads fastest away from a plane."""
    return max(range(3), key=lambda axis: abs(half[axis]))


def canonical(half: Half) -> Half:
    """Returns the half-space in lowest terms, or the other one of its plane if the first number that is not 0 is below 0."""
    found = lowest(half)
    return found if next(number for number in found if number) > 0 else turned(found)


def greatest(numbers: Sequence[int]) -> int:
    """Returns the greatest size of some numbers, without their signs."""
    return max(abs(number) for number in numbers)


def fits(half: Half) -> bool:
    """Returns whether a `half` may have these numbers."""
    return any(half[:3]) and greatest(half[:3]) <= MOST_NORMAL and abs(half[3]) <= MOST_CONSTANT


def distance(half: Half, point: Point) -> Fraction:
    """Returns how far a point lies from a plane along the axis on which the plane is steepest. The shortest way is not longer."""
    return Fraction(abs(value(half, point)), point[3] * greatest(half[:3]))


def numbers(point: Point) -> tuple[Number, ...]:
    """Returns the three coordinates of a point."""
    return tuple(ratio(number, point[3]) for number in point[:3])


def normal(ring: Ring) -> tuple[Number, ...]:
    """Returns twice the areas that a ring goes round, seen along each axis: its direction is that of the plane of the ring, to the
    side from which it goes round counterclockwise."""
    found = [(numbers(p), numbers(q)) for p, q in edges(ring)]
    return tuple(sum(((p[a] - q[a]) * (p[b] + q[b]) for p, q in found), Fraction(0)) for a, b in ((1, 2), (2, 0), (0, 1)))


def whole(given: Sequence[Number]) -> tuple[int, ...]:
    """Returns integers in lowest terms that have the same ratios as the `given` ones."""
    scale = lcm(*(Fraction(number).denominator for number in given))
    return lowest([int(number * scale) for number in given])


def through(at: Point, direction: Sequence[Number]) -> Half:
    """Returns the half-space to the side of a `direction` whose plane goes through a point."""
    level = sum((number * place for number, place in zip(direction, numbers(at))), Fraction(0))
    return whole([*direction, -level])


def fit_of(half: Half, corners: Iterable[Point]) -> Fit:
    off, corner = max((distance(half, corner), corner) for corner in corners)
    return Fit(half, off, corner)


def upright(corners: Sequence[Point]) -> Iterator[Half]:
    """Yields the upright planes through two of the corners."""
    places = sorted({corner[:2] for corner in corners})
    for (x, y), (a, b) in combinations(some(places), 2):
        yield canonical((b - y, x - a, 0, (a - x) * y - (b - y) * x))


def some(places: list[Point]) -> list[Point]:
    """Returns the first, the last and others of sorted places, so many as are tried."""
    step = max(1, -(-(len(places) - 1) // (MOST_TRIED - 1)))
    return list(dict.fromkeys([*places[::step], places[-1]]))


def sloping(corners: Sequence[Point]) -> Iterator[Half]:
    """Yields the planes through three of the corners."""
    for three in combinations(some(sorted(set(corners))), 3):
        direction = normal(list(three))
        if any(direction):
            yield canonical(through(three[0], direction))


def nearest(number: Fraction) -> int:
    """Returns the nearest integer, a half away from zero."""
    size = int(2 * abs(number) + 1) // 2
    return size if number >= 0 else -size


def rounded(direction: Sequence[Number], corners: Sequence[Point]) -> Half:
    """Returns a plane near a direction, with the greatest numbers that a `half` may have, in the middle of the corners."""
    scale = Fraction(MOST_NORMAL) / max(abs(Fraction(number)) for number in direction)
    found = canonical(tuple(nearest(number * scale) for number in direction))[:3]
    levels = [sum(a * b for a, b in zip(found, numbers(corner))) for corner in corners]
    return canonical((*found, -nearest(Fraction(max(levels) + min(levels)) / 2)))


def level(corners: Sequence[Point]) -> Iterator[Half]:
    """Yields the level planes through one of the corners."""
    for z in some(sorted({corner[2:3] for corner in corners})):
        yield 0, 0, 1, -z[0]


def near(direction: Sequence[Number], corners: Sequence[Point], most: Fraction) -> Fit:
    """Returns a plane that lies near whole corners, the same from both sides of a face: the best level one if no corner is more than
    `most` away from it, or else the best upright one, the best one through three corners; or else the nearest of all that are tried."""
    found: list[Fit] = []
    for tried in (level, upright, sloping):
        fitting = [fit_of(half, corners) for half in dict.fromkeys(tried(corners)) if fits(half)]
        found.append(min(fitting, key=lambda fit: (fit.off, greatest(fit.half), fit.half), default=fit_of(rounded(direction, corners), corners)))
        if found[-1].off <= most:
            return found[-1]
    return min([*found, fit_of(rounded(direction, corners), corners)], key=lambda fit: fit.off)
