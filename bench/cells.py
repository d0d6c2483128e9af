"""Cells that are timed: lists of half-spaces, each of four whole numbers within the bounds of the language.

A cell of a kind is made of the number of its half-spaces alone, so that two runs time the same cells.
"""
import math
import random

EDGE = 2**24
# How far the tangent planes of the greater body lie from the origin, and how far those of the smaller one do.
FAR = 2**23
NEAR = 2**20
# Four directions that add up to nothing, about which the planes of a tetrahedron stand.
CORNERS = [(1, 1, 1), (1, -1, -1), (-1, 1, -1), (-1, -1, 1)]


def turned(half):
    """The other side of a half-space."""
    return tuple(-number for number in half)


def box(low, high):
    """The six sides of a box, those of x first."""
    sides = []
    for axis in range(3):
        unit = [int(axis == other) for other in range(3)]
        sides += [(*unit, -low[axis]), turned((*unit, -high[axis]))]
    return sides


def boxes(count, at):
    """The sides of boxes, each one smaller than the one before. `at` says where the corner of a box lies, by its number."""
    sides = []
    for number in range(-(-count // 6)):
        corner = [at(number) + 1000 * number + 100 * axis for axis in range(3)]
        sides += box(corner, [low + 2**20 - 3000 * number for low in corner])
    return sides[:count]


def boxes_together(count):
    """The sides of boxes that share a box."""
    return boxes(count, lambda number: 0)


def boxes_apart(count):
    """The sides of boxes by turns at two places, so far from each other that they share nothing."""
    if count == 6:
        # The lower sides of one box, and the upper sides of another that lies below them.
        return boxes(6, lambda number: FAR)[::2] + boxes(6, lambda number: 0)[1::2]
    return boxes(count, lambda number: FAR * (number % 2))


def skew(count):
    """Half-spaces that hold one common point well inside; the last one is the average of the first three."""
    source = random.Random(count)
    point = [source.randint(-NEAR, NEAR) for _ in range(3)]
    halves = []
    for _ in range(count - 1):
        normal = [source.choice([-1, 1]) * source.randint(EDGE // 2, EDGE - 2) for _ in range(3)]
        room = source.randint(2**43, 2**45)
        halves.append((*normal, room - sum(number * at for number, at in zip(normal, point))))
    sums = [sum(numbers) for numbers in zip(*halves[:3])]
    # A little change of the first one makes each sum a multiple of 3.
    halves[0] = tuple(number - total % 3 for number, total in zip(halves[0], sums))
    return halves + [tuple(total // 3 for total in sums)]


def skew_empty(count):
    """The same half-spaces with the last one turned: it holds nothing that the first three hold."""
    *others, last = skew(count)
    return others + [turned(last)]


def tangent(normal, radius):
    """The half-space that holds the origin, and whose boundary lies along a sphere, or just outside it."""
    return (*normal, math.isqrt(radius * radius * sum(number * number for number in normal)) + 1)


def spread(count):
    """Directions that are spread over the sphere, along a spiral."""
    for number in range(count):
        z = 1 - (2 * number + 1) / count
        turn = number * math.pi * (3 - math.sqrt(5))
        flat = math.sqrt(1 - z * z)
        yield [round((EDGE - 1) * size) for size in (flat * math.cos(turn), flat * math.sin(turn), z)]


def corners(radius):
    """The tangent planes of a body at the sides of a tetrahedron, which is a little skew."""
    source = random.Random(radius)
    normals = ([sign * (EDGE - source.randint(1, EDGE // 64)) for sign in corner] for corner in CORNERS)
    return [tangent(normal, radius) for normal in normals]


def round_body(count):
    """Tangent planes round a body, which all hold its centre."""
    return corners(FAR) + [tangent(normal, FAR) for normal in spread(count - 4)]


def round_empty(count):
    """The same planes with four of them turned, which contradict one another."""
    planes = round_body(count)
    return [turned(plane) for plane in planes[:4]] + planes[4:]


def four_refute(count):
    """Tangent planes round a body, and last the sides of a tetrahedron about the same centre, all four turned.

    Any three of the four meet in a point inside the body, and just behind it is a point that these three and all the
    others hold. So nothing but all four together refutes the cell.
    """
    return [tangent(normal, FAR) for normal in spread(count - 4)] + [turned(plane) for plane in corners(NEAR)]
