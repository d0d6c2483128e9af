"""Scripts about regions that are timed: each makes one region and asks for it, or for what is left of it.

A script of a kind is made of one number alone, which says how large its region is, so that two runs time the same work.
None of them meets a limit of the language.
"""
import math
import random

import cells

# The most boxes that one line joins: so many boxes and what joins them are 499 nodes.
BOXES_OF_A_LINE = 250
# How far the middles of the tetrahedra lie from that of the box at most, on each axis.
SPREAD = 5 * cells.NEAR // 4


def half(numbers):
    return "half {} {} {} {}".format(*numbers)


def box(low, high):
    return "box {} {} {} {} {} {}".format(*low, *high)


def joined(word, operands):
    """All operands in one expression, by one word."""
    return " ".join([word] * (len(operands) - 1) + operands)


def row(count, south=0):
    """Boxes in a row that do not touch each other."""
    return [box((1000 * number, south, 0), (1000 * number + 900, south + 800, 600)) for number in range(count)]


def named_row(count):
    """The lines that give a row of boxes the name `row`, and the names of its pieces."""
    boxes = row(count)
    pieces = [boxes[start : start + BOXES_OF_A_LINE] for start in range(0, count, BOXES_OF_A_LINE)]
    lines = [f"let piece-{number} = {joined('or', piece)}" for number, piece in enumerate(pieces)]
    return lines + [f"let row = {joined('or', [f'name piece-{number}' for number in range(len(pieces))])}"]


def union(count):
    """A union of boxes."""
    return named_row(count) + ["show name row"]


def union_less_box(count):
    """A union of boxes without one box that cuts through all of them."""
    return named_row(count) + ["show minus name row " + box((0, 0, 0), (1000 * count, 800, 300))]


def tetrahedron(source):
    """The four sides of a tetrahedron near the origin, a little skew."""
    middle = [source.randint(-SPREAD, SPREAD) for _ in range(3)]
    for corner in cells.CORNERS:
        normal = [sign * (cells.EDGE - source.randint(1, cells.EDGE // 4)) for sign in corner]
        *normal, room = cells.tangent(normal, cells.NEAR)
        yield half((*normal, room - sum(number * at for number, at in zip(normal, middle))))


def box_less_tetrahedra(count):
    """A box without tetrahedra that lie across each other."""
    source = random.Random(7)
    others = [joined("and", list(tetrahedron(source))) for _ in range(count)]
    return [f"show minus {box([-cells.FAR] * 3, [cells.FAR] * 3)} {joined('or', others)}"]


def tangent_planes(count):
    """One cell, between tangent planes of a round body. Each plane is a side of the cell."""
    return ["show " + joined("and", [half(plane) for plane in cells.round_body(count)])]


def sliced_union(count):
    """A union of boxes, and what it has at one height."""
    return named_row(count) + ["section name row 300"]


def slices(sides):
    """One cell between such sides, and what it has at 1,000 heights."""
    body = joined("and", [half(side) for side in sides])
    return [f"let body = {body}"] + [f"section name body {height}" for height in range(-500_000, 500_000, 1000)]


def sliced_body(count):
    """Slices of a cell between tangent planes of a round body. Not each plane is an edge of each slice."""
    return slices(cells.round_body(count))


def sliced_tower(count):
    """Slices of a cell between upright tangent planes of a round tower. Each plane is an edge of each slice."""
    angles = [2 * math.pi * number / count for number in range(count)]
    normals = [[round(cells.FAR * turn(angle)) for turn in (math.cos, math.sin)] for angle in angles]
    return slices([cells.tangent((*normal, 0), cells.NEAR) for normal in normals])
