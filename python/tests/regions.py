"""Expressions of the language as convex bodies, by the rules of docs/language.md, for tests that need no store: what two of them
have in common, and their volumes. Boundaries are of no account to it."""
from decimal import Decimal
from fractions import Fraction

from rpstore import lots, shape

DOMAIN = [[(1, 0, 0, shape.EDGE), (-1, 0, 0, shape.EDGE)], [(0, 1, 0, shape.EDGE), (0, -1, 0, shape.EDGE)], [(0, 0, 1, shape.EDGE), (0, 0, -1, shape.EDGE)]]


def units(word):
    return int(Decimal(word) * 1000) if "." in word else int(word)


def within(halves):
    body = shape.brick(DOMAIN)
    for half in halves:
        body = body and body.cut(half)
    return [body] if body else []


def between(low, high):
    return within([half for axis in range(3) for half in (tuple(int(at == axis) for at in range(3)) + (-low[axis],), tuple(-int(at == axis) for at in range(3)) + (high[axis],))])


def places_of(corners):
    """Returns in order the x at which a polygon has corners, or at which the lines of two edges cross."""
    ends = list(zip(corners, corners[1:] + corners[:1]))
    places = {Fraction(x) for x, _ in corners}
    for at, ((ax, ay), (bx, by)) in enumerate(ends):
        for (cx, cy), (dx, dy) in ends[:at]:
            below = (bx - ax) * (dy - cy) - (by - ay) * (dx - cx)
            if below:
                places.add(ax + Fraction((cx - ax) * (dy - cy) - (cy - ay) * (dx - cx), below) * (bx - ax))
    return sorted(places)


def prism(low, high, corners):
    """Between two neighbouring x at which the polygon has corners or crosses itself its edges are sorted by their y."""
    ends, places = list(zip(corners, corners[1:] + corners[:1])), places_of(corners)
    found = []
    for west, east in zip(places, places[1:]):
        x = (west + east) / 2
        over = sorted((ay + Fraction(by - ay, bx - ax) * (x - ax), sorted([(ax, ay), (bx, by)])) for (ax, ay), (bx, by) in ends if min(ax, bx) < x < max(ax, bx))
        for (_, lower), (_, upper) in zip(over[::2], over[1::2]):
            sides = [(west.denominator, 0, 0, -west.numerator), (-east.denominator, 0, 0, east.numerator), (0, 0, 1, -low), (0, 0, -1, high)]
            for ((px, py), (qx, qy)), sign in ((lower, 1), (upper, -1)):
                sides.append((-sign * (qy - py), sign * (qx - px), 0, sign * ((qy - py) * px - (qx - px) * py)))
            found += within(sides)
    return found


def minus(cells, others):
    for other in others:
        cells = [piece for cell in cells for piece in cell.minus(other)]
    return cells


def common(cells, others):
    found = []
    for cell in cells:
        for other in others:
            body = cell
            for half in other.halves:
                body = body and body.cut(half)
            found += [body] if body else []
    return found


def read(words, known):
    """Takes the words of an expression off the front of a list."""
    word = words.pop(0)
    if word == "half":
        return within([tuple(int(words.pop(0)) for _ in range(4))])
    if word == "box":
        numbers = [units(words.pop(0)) for _ in range(6)]
        return between(numbers[:3], numbers[3:])
    if word == "prism":
        low, high, count = units(words.pop(0)), units(words.pop(0)), int(words.pop(0))
        return prism(low, high, [(units(words.pop(0)), units(words.pop(0))) for _ in range(count)])
    if word in ("name", "lot"):
        return known[word, words.pop(0)]
    if word == "all":
        return within([])
    if word == "not":
        return minus(within([]), read(words, known))
    one, other = read(words, known), read(words, known)
    return common(one, other) if word == "and" else minus(one, other) if word == "minus" else one + minus(other, one)


def lots_of(script):
    """The lots of a script, as bodies that share no volume, with their layers."""
    found, known, layer = {}, {}, "base"
    for line in script.splitlines():
        command, _, rest = line.partition(" ")
        if command == "layer":
            layer = rest
        elif command in ("let", "register"):
            name, *words = rest.replace(" = ", " ").split(" ")
            cells = read(words, known)
            assert not words
            known["name" if command == "let" else "lot", name] = cells
            if command == "register":
                found[name] = cells, layer
    return found


def are_equal(one, other):
    return not minus(one, other) and not minus(other, one)


def seen(script, where=None):
    """What the lots of a script are, as `lots.load` tells it after the store was asked."""
    bodies = [lots.Body(name, True, layer, 1, (), cells) for name, (cells, layer) in lots_of(script).items()]
    return lots.Seen(bodies, [], where or lots.Place(), 0, "not checked", 2)


# ---- points, those of boundaries, too

def has_half(half, point):
    level = sum(a * b for a, b in zip(half, (*point, 1)))
    return level > 0 or level == 0 and next(number for number in half if number) > 0


def has_prism(low, high, corners, point):
    """By the edges above the point: each from its left end to before its right one; a rising edge is above its own points."""
    x, y, z = point
    odd = False
    for (p, q), (r, s) in map(sorted, zip(corners, corners[1:] + corners[:1])):
        if p <= x < r:
            below = (s - q) * (x - p) - (r - p) * (y - q)
            odd ^= below > 0 or below == 0 and s > q
    return odd and low <= z < high


def has(words, point):
    """Whether a point, in units, is a member of the expression at the front of a list, which is taken off; no names and no lots."""
    word = words.pop(0)
    if word == "half":
        return has_half([int(words.pop(0)) for _ in range(4)], point)
    if word == "box":
        numbers = [units(words.pop(0)) for _ in range(6)]
        return all(low <= at < high for low, at, high in zip(numbers, point, numbers[3:]))
    if word == "prism":
        low, high, count = units(words.pop(0)), units(words.pop(0)), int(words.pop(0))
        return has_prism(low, high, [(units(words.pop(0)), units(words.pop(0))) for _ in range(count)], point)
    one, other = has(words, point), has(words, point)
    return one and other if word == "and" else one and not other if word == "minus" else one or other
