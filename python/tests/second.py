"""Areas and volumes by another way than that of the package, for its tests.

The corners of a convex body are the solutions of each three of its planes, by Cramer's rule, that lie in all half-spaces. Between
the heights of two neighbouring corners the area at a height is of the second degree, so Simpson's rule gives the volume exactly.
What is in one of several bodies is had by inclusion and exclusion.
"""
from fractions import Fraction
from itertools import combinations


def determinant(p, q, r):
    return p[0] * (q[1] * r[2] - q[2] * r[1]) - p[1] * (q[0] * r[2] - q[2] * r[0]) + p[2] * (q[0] * r[1] - q[1] * r[0])


def corners(halves):
    """The corners of a body that is bounded, as triples of fractions."""
    found = set()
    for three in combinations(halves, 3):
        below = determinant(*(half[:3] for half in three))
        if not below:
            continue
        point = [determinant(*([-half[3] if axis == k else half[axis] for axis in range(3)] for half in three)) for k in range(3)]
        if below < 0:
            below, point = -below, [-number for number in point]
        if all(half[0] * point[0] + half[1] * point[1] + half[2] * point[2] + half[3] * below >= 0 for half in halves):
            found.add(tuple(Fraction(number, below) for number in point))
    return found


def hull_area(points):
    """The area of the convex hull of points of a plan."""
    chain = []
    points = sorted(set(points))
    for way in (points, points[::-1]):
        half = []
        for point in way:
            while len(half) > 1 and cross(half[-2], half[-1], point) <= 0:
                half.pop()
            half.append(point)
        chain += half[:-1]
    return sum((p[0] * q[1] - p[1] * q[0] for p, q in zip(chain, chain[1:] + chain[:1])), Fraction(0)) / 2


def cross(p, q, r):
    return (q[0] - p[0]) * (r[1] - p[1]) - (q[1] - p[1]) * (r[0] - p[0])


def plan_area(lines):
    """The area where ax + by + d is not below 0 for each of the `lines` (a, b, d), which bound it."""
    points = set()
    for (a, b, d), (e, f, g) in combinations(lines, 2):
        below = a * f - b * e
        if below:
            x, y = Fraction(b * g - d * f) / below, Fraction(d * e - a * g) / below
            if all(line[0] * x + line[1] * y + line[2] >= 0 for line in lines):
                points.add((x, y))
    return hull_area(points) if len(points) > 2 else Fraction(0)


def volume(halves):
    """The volume of a convex body that is bounded."""
    def area(z):
        level = [(a, b, c * z + d) for a, b, c, d in halves]
        return plan_area([line for line in level if line[0] or line[1]]) if all(a or b or d >= 0 for a, b, d in level) else Fraction(0)

    heights = sorted({z for _, _, z in corners(halves)})
    return sum(((high - low) / 6 * (area(low) + 4 * area((low + high) / 2) + area(high)) for low, high in zip(heights, heights[1:])), Fraction(0))


def shadow(halves):
    """The lines that bound what a convex body covers in plan: those through two of its corners that have no other on the right."""
    points = {(x, y) for x, y, _ in corners(halves)}
    lines = [(p[1] - q[1], q[0] - p[0], p[0] * q[1] - p[1] * q[0]) for p in points for q in points if p != q]
    return [line for line in lines if all(line[0] * x + line[1] * y + line[2] >= 0 for x, y in points)]


def of_union(parts, measure):
    """The measure of what is in one of the `parts` at least, each a list of half-spaces or of lines."""
    return sum((-1) ** (count + 1) * measure(list(dict.fromkeys(each for part in some for each in part)))
               for count in range(1, len(parts) + 1) for some in combinations(parts, count))
