"""Scripts about how two regions stand to each other, which are timed.

A script of a kind is made of one number alone, so that two runs time the same work. None meets a limit of the language,
and no line is refused.
"""
import itertools
import random
from fractions import Fraction

import cells
import regions

# The cubes of the chessboard along each axis: 256 are black and 256 white.
SIDE = 8
# How far the corners of the small regions lie from the origin at most, on each axis.
SMALL = 4
# The greatest numbers of the normal of a skew plane that cuts a small box.
STEEP = 3
# The normals of the three planes at a tip, but for the factor below, and how often each is taken for the plane near it.
NORMALS = [(1, 3, 5), (5, 1, 3), (3, 5, 1)]
SHARES = [1864001, 1864029, 1864117]
# The factor, a prime: 1 over it is the value of the near plane at the tip of the cell above a gap.
DENOMINATOR = 2421547
# Where the first two planes lie.
OFFSETS = [1234567890, 9876543211]


def ask(word, first, second):
    """A question about two unions of boxes."""
    unions = [f"let {name} = {regions.joined('or', boxes)}" for name, boxes in (("first", first), ("second", second))]
    return unions + [f"{word} name first name second"]


def chessboard(word, count):
    """The first black and the first white cubes of a chessboard in three dimensions, in order of x, y and z."""
    cubes = [[], []]
    for corner in itertools.product(range(SIDE), repeat=3):
        cubes[sum(corner) % 2].append(regions.box(corner, [low + 1 for low in corner]))
    return ask(word, *(colour[:count] for colour in cubes))


def rows_apart(word, count):
    """Two rows of boxes with a street between them."""
    return ask(word, regions.row(count), regions.row(count, 2000))


def at_corners(count):
    """Boxes in a row, each of which touches the next one at a corner alone."""
    return [regions.box([number] * 3, [number + 1] * 3) for number in range(count)]


def small_box(source):
    """The six sides of a box."""
    low = [source.randint(-SMALL, SMALL - 1) for _ in range(3)]
    return cells.box(low, [source.randint(at + 1, SMALL) for at in low])


def small_cut_box(source):
    """The six sides of a box, and a skew plane that leaves the middle of it."""
    sides = small_box(source)
    normal = [source.choice([-1, 1]) * source.randint(1, STEEP) for _ in range(3)]
    # Twice the middle.
    middle = [upper[3] - lower[3] for lower, upper in zip(sides[::2], sides[1::2])]
    least = -dot(normal, middle) // 2 + 1
    return sides + [(*normal, least + source.randint(0, STEEP))]


def dot(first, second):
    return sum(one * other for one, other in zip(first, second))


def cross(first, second):
    """A direction at right angles to two others."""
    return [first[at - 2] * second[at - 1] - first[at - 1] * second[at - 2] for at in range(3)]


def plane(corners):
    """The plane through three points."""
    start, *others = corners
    normal = cross(*([end - begin for end, begin in zip(other, start)] for other in others))
    return (*normal, -dot(normal, start))


def value(half, point):
    return dot(half[:3], point) + half[3]


def small_tetrahedron(source):
    """The four sides of a tetrahedron."""
    corners = [[source.randint(-SMALL, SMALL) for _ in range(3)] for _ in range(4)]
    sides = []
    for number, corner in enumerate(corners):
        side = plane(corners[:number] + corners[number + 1 :])
        inside = value(side, corner)
        if inside == 0:
            # The four corners lie in one plane.
            return small_tetrahedron(source)
        sides.append(side if inside > 0 else cells.turned(side))
    return sides


def small_region(source):
    return source.choice([small_box, small_cut_box, small_tetrahedron])(source)


def grown(source, sides):
    """The same sides, each moved outward by little or nothing."""
    most = source.randint(0, 2)
    least = source.randint(0, most)
    return [(*normal, room + source.randint(least, most)) for *normal, room in sides]


def small_pair(source):
    """Two small regions: every second time the one is the other with its sides moved."""
    region = small_region(source)
    if source.random() < 0.5:
        return region, small_region(source)
    pair = [region, grown(source, region)]
    source.shuffle(pair)
    return pair


def expression(sides):
    """The cell with these sides. The first six of more than four are those of a box."""
    operands = [regions.half(side) for side in sides]
    if len(sides) > 4:
        low, high = [-side[3] for side in sides[:6:2]], [side[3] for side in sides[1:6:2]]
        operands = [regions.box(low, high)] + operands[6:]
    return regions.joined("and", operands)


def small_pairs(count):
    """The relations of pairs of small regions: boxes, boxes that a skew plane cuts, tetrahedra."""
    source = random.Random(7)
    return [f"rcc {' '.join(map(expression, small_pair(source)))}" for _ in range(count)]


def tip_and_plane(sign):
    """The three planes of a cell with a tip, and a skew plane on which the tip has the value sign / DENOMINATOR."""
    first, second, third = SHARES
    # The third plane lies where the sum below is a multiple of the denominator.
    last = (sign - first * OFFSETS[0] - second * OFFSETS[1]) * pow(third, -1, DENOMINATOR) % DENOMINATOR
    offsets = [*OFFSETS, last]
    tip = [(*(DENOMINATOR * number for number in normal), -offset) for normal, offset in zip(NORMALS, offsets)]
    skew = [dot(SHARES, numbers) for numbers in zip(*NORMALS)]
    return tip, (*skew, (sign - dot(SHARES, offsets)) // DENOMINATOR)


def narrow(sign):
    """The lines that name two cells on either side of a skew plane.

    A gap is between them (1), or a sliver is in both (-1).
    """
    tip, skew = tip_and_plane(sign)
    check_narrow(sign, tip, skew)
    return [f"let upper = {expression(tip)}", f"let lower = {expression([cells.turned(skew)])}"]


def meeting(planes):
    """The common point of three planes, by Cramer's rule."""
    normals = [side[:3] for side in planes]
    turns = [cross(normals[at - 2], normals[at - 1]) for at in range(3)]
    whole = dot(turns[0], normals[0])
    return [Fraction(-sum(side[3] * turn[at] for side, turn in zip(planes, turns)), whole) for at in range(3)]


def check_narrow(sign, tip, skew):
    """Stops where the gap or the sliver is not as wide as said: 2^-46 of a unit, but for less than a hundredth."""
    away = value(skew, meeting(tip))
    assert away == Fraction(sign, DENOMINATOR)
    # The square of the distance of the tip from the plane.
    square = away**2 / dot(skew[:3], skew[:3])
    assert Fraction(99, 100) ** 2 < square * 2**92 < Fraction(101, 100) ** 2
    # The plane is made of the three others and of the value at the tip, so no point of the cell lies below the tip.
    *normal, room = [dot(SHARES, numbers) for numbers in zip(*tip)]
    assert [DENOMINATOR * number for number in skew] == [*normal, room + sign]
