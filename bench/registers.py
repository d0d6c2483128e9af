"""Scripts about the register that are timed: parcels are registered, cut, subdivided and asked for.

A script of a kind is made of one number alone, which says how many parcels it has, so that two runs time the same work.
No line of them is refused.
"""
import itertools
import math
import random

import regions

# The edge of a storey or a flat, its height, and how far a stair reaches to either side, in millimetres.
EDGE, HEIGHT, STAIR = 12_000, 3_000, 2_000
# The greatest coordinate of the domain.
EDGE_OF_ALL = 16_777_216
# The edge of the square whose middle all wedges share.
SQUARE = 1_000_000
# How many units a storey of a tower has on either side of its hall, and how deep a unit is.
UNITS, DEPTH = 5, 18_000


def unit_boxes(count):
    """Boxes of one unit in a row, each registered."""
    return [f"register p{number} {regions.box((number, 0, 0), (number + 1, 1, 1))}" for number in range(count)]


def quads(count):
    """A town of prisms of four corners, wall to wall, in streets of a hundred; the corners are drawn."""
    draw = random.Random(4)
    corners = {
        (street, number): (street * 30_000 + draw.randint(-4_000, 4_000), number * 40_000 - 2_000_000 + draw.randint(-4_000, 4_000))
        for street in range(count // 100 + 1)
        for number in range(101)
    }
    lines = []
    for street, number in itertools.product(range(count // 100), range(100)):
        around = [corners[street, number], corners[street + 1, number], corners[street + 1, number + 1], corners[street, number + 1]]
        lines.append(f"register n{street}-{number} prism -50000 100000 4 {' '.join(f'{x} {y}' for x, y in around)}")
    return lines


def piled_boxes(count):
    """Boxes that lie one behind the other on y and all share an interval on x, each registered."""
    return [f"register p{number} {regions.box((0, number, 0), (1, number + 1, 1))}" for number in range(count)]


def storeys(count):
    """Storeys one upon the other, each registered, cut by a skew plane and asked for neighbours; then all are audited and listed."""
    lines = []
    for number in range(count):
        low, high = HEIGHT * number, HEIGHT * (number + 1)
        lines += [
            f"register s{number} {regions.box((0, 0, low), (EDGE, EDGE, high))}",
            # Through the middle of the storey.
            f"cut s{number} half 5 3 2 {-4 * EDGE - low - high} s{number}-in s{number}-out",
            f"neighbours s{number}-in",
        ]
    return lines + ["audit", "list"]


def owners(count):
    """A row of boxes of one unit, and whose the middle of each is."""
    return unit_boxes(count) + [f"at {2 * number + 1} 1 1 2" for number in range(count)]


def owners_then(count):
    """A row of boxes of one unit, and whose the middle of each was after the line that registered it."""
    return unit_boxes(count) + [f"asof {number + 1} {2 * number + 1} 1 1 2" for number in range(count)]


def end_to_end(count):
    """A row of boxes of one unit, and over how many of them the first is joined to the last."""
    return unit_boxes(count) + [f"access p0 p{count - 1}"]


def flats(count):
    """Storeys one upon the other, each of two flats and a stair that touches both, all registered."""
    lines = []
    for number in range(count):
        low, high = HEIGHT * number, HEIGHT * (number + 1)
        lines += [
            f"register west{number} {regions.box((0, 0, low), (EDGE, EDGE, high))}",
            f"register east{number} {regions.box((EDGE, 0, low), (2 * EDGE, EDGE, high))}",
            f"register stair{number} {regions.box((EDGE - STAIR, EDGE, low), (EDGE + STAIR, EDGE + STAIR, high))}",
        ]
    return lines


def flats_audited(count):
    """Such storeys, and then all are audited."""
    return flats(count) + ["audit"]


def flats_joined(count):
    """Such storeys, and over how many lots a flat below is joined to one above."""
    return flats(count) + [f"access west0 east{count - 1}"]


def mixed(lines):
    """The lines in another order, the same in each run."""
    return random.Random(len(lines)).sample(lines, len(lines))


def piled_mixed(count):
    """Boxes that lie one behind the other on y and all share an interval on x, registered in no order of place."""
    return mixed(piled_boxes(count))


def strips(count):
    """Long thin boxes from one side of the domain to the other, in no order of place: on the ground along x, and on the
    floor above along y. Each below touches each above, so none is asked for what it touches."""
    low, half = -EDGE_OF_ALL, count // 2
    below = [regions.box((low, 2 * number, 0), (-low, 2 * number + 1, 1)) for number in range(count - half)]
    above = [regions.box((2 * number, low, 1), (2 * number + 1, -low, 2)) for number in range(half)]
    return [f"register p{number} {box}" for number, box in enumerate(mixed(below + above))] + ["audit"]


def beams(count):
    """Long thin boxes side by side, in no order of place, which all share an interval on x and begin at as many x as they are."""
    draw = random.Random(6)
    lines = []
    for number in range(count):
        first = draw.randint(-EDGE_OF_ALL, -EDGE_OF_ALL // 4)
        lines.append(f"register p{number} {regions.box((first, number, 0), (first + EDGE_OF_ALL, number + 1, 1))}")
    return mixed(lines)


def street(count, slant=0):
    """Boxes in one row along y, in no order of place, and each a little out of line: all share an interval on x, and begin at many
    places of it. With a slant the row leaves the axis by so many units of x for each two of y."""
    draw = random.Random(3)
    lines = []
    for number in range(count):
        y, z = 1001 * (number % 33_000) - 16_700_000, 1000 * (number // 33_000)
        x = draw.randint(0, 998) + slant * y // 2
        lines.append(f"register p{number} {regions.box((x, y, z), (x + 1000, y + 1001, z + 1000))}")
    return mixed(lines)


def slanted_street(count):
    """The same, half as far along x as along y."""
    return street(count, 1)


def scattered(count, axes):
    """Boxes of the places of a grid over so many axes, in no order of place, each moved a little on each of these axes."""
    draw = random.Random(5)
    edge = round(count ** (1 / axes))
    lines = []
    for number, place in enumerate(itertools.product(range(edge), repeat=axes)):
        low = [20_000 * step + draw.randint(0, 7_000) for step in place] + [0] * (3 - axes)
        lines.append(f"register p{number} {regions.box(low, [side + 12_000 for side in low])}")
    return mixed(lines)


def scattered_houses(count):
    """A town of houses, each moved a little on x and y."""
    return scattered(count, 2)


def scattered_rooms(count):
    """Rooms one beside and above the other, each moved a little on every axis."""
    return scattered(count, 3)


def apart_pairs(count):
    """So many boxes, two in each lot, so far from each other that the box around each lot meets that of each other one."""
    edge = EDGE_OF_ALL
    return [
        f"register p{number} or {regions.box((number - edge, number - edge, 0), (number - edge + 1, number - edge + 1, 1))}"
        f" {regions.box((edge - number - 1, edge - number - 1, 0), (edge - number, edge - number, 1))}"
        for number in range(count // 2)
    ]


def among_wide(count):
    """Sixteen lots of 1,024 boxes each, strewn from one end of the domain to the other, and then single boxes among them."""
    lines = []
    for lot in range(16):
        boxes = [regions.box((16_000 * step - 8_000_000, 16 * step + lot, 0), (16_000 * step - 7_999_999, 16 * step + lot + 1, 1)) for step in range(1024)]
        pieces = [boxes[start : start + 256] for start in range(0, 1024, 256)]
        lines += [f"let piece{lot}-{number} = {regions.joined('or', piece)}" for number, piece in enumerate(pieces)]
        lines.append(f"register wide{lot} {regions.joined('or', [f'name piece{lot}-{number}' for number in range(4)])}")
    return lines + [f"register p{number} {regions.box((16 * number + 1, 99, 0), (16 * number + 2, 100, 1))}" for number in range(count)]


def registered(name, boxes):
    """Registers a lot of 1,024 boxes, made under four names."""
    pieces = [boxes[start : start + 256] for start in range(0, len(boxes), 256)]
    lets = [f"let {name}-{number} = {regions.joined('or', piece)}" for number, piece in enumerate(pieces)]
    return lets + [f"register {name} {regions.joined('or', [f'name {name}-{number}' for number in range(len(pieces))])}"]


def interleaved(count):
    """Lots of 1,024 boxes each, strewn along one diagonal: the boxes around all lots meet and no parts do. Then all are audited."""
    lines = []
    for lot in range(count):
        boxes = [regions.box((16_000 * step - 8_000_000, 200 * step + 2 * lot, 0), (16_000 * step - 7_999_999, 200 * step + 2 * lot + 1, 1)) for step in range(1024)]
        lines += registered(f"w{lot}", boxes)
    return lines + ["audit"]


def chessboard(count):
    """Lots of 1,024 boxes each: a board of 32 by 32 squares has one box of each lot in each square, side by side and apart.
    Then all are audited."""
    edge = math.ceil(math.sqrt(count))
    lines = []
    for lot in range(count):
        places = [(20 * (edge * column + lot % edge), 20 * (edge * row + lot // edge)) for column in range(32) for row in range(32)]
        lines += registered(f"c{lot}", [regions.box((x, y, 0), (x + 19, y + 19, 10)) for x, y in places])
    return lines + ["audit"]


def interleaved_slabs(count):
    """The first of these, but the last part of each lot is a slanted slab: the boxes around all slabs are one, and no slabs meet.
    So every two lots have one pair of parts that is tested."""
    lines = []
    for lot in range(count):
        boxes = [regions.box((16_000 * step - 8_000_000, 200 * step + 2 * lot, 0), (16_000 * step - 7_999_999, 200 * step + 2 * lot + 1, 1)) for step in range(1023)]
        low, high = 1_000_000 + 9 * lot, 1_000_004 + 9 * lot
        slab = f"and and {regions.box((0, 0, 100), (1_000_000, 1_100_000, 200))} half 1 1 0 {-low} half -1 -1 0 {high}"
        lines += registered(f"s{lot}", boxes + [slab])
    return lines + ["audit"]


def one_place(count):
    """The same box in each of so many layers, registered."""
    return [line for number in range(count) for line in (f"layer q{number}", f"register p{number} {regions.box((0, 0, 0), (9, 9, 9))}")]


def one_place_owners(count):
    """The same, and whose a point of it is, in as many layers."""
    return one_place(count) + [line for number in range(count) for line in (f"layer q{number}", "at 4 4 4 1")]


def polynomial(word, number=0):
    """The polynomial of the bytes of a word in 131, modulo 2^18."""
    for byte in word.encode():
        number = (number * 131 + byte) % 262_144
    return number


def names_alike(count):
    """So many names of eight letters with one polynomial, as a stranger may choose names of layers."""
    words = ["".join(letters) for letters in itertools.product("abcdefghijklmnopqrstuvwxyz", repeat=4)]
    ends = {polynomial(word): word for word in words}
    found = (front + ends[-(polynomial(front) * 131**4) % 262_144] for front in words if -(polynomial(front) * 131**4) % 262_144 in ends)
    return list(itertools.islice(found, count))


def one_place_alike(count):
    """The same box in each of so many layers with names that are alike, and whose a point of it is, in as many layers."""
    layers = names_alike(count)
    lots = [line for number, layer in enumerate(layers) for line in (f"layer {layer}", f"register p{number} {regions.box((0, 0, 0), (9, 9, 9))}")]
    return lots + [line for layer in layers for line in (f"layer {layer}", "at 4 4 4 1")]


def one_place_alike_then(count):
    """The same, but each lot is retired before the next is registered, and whose the point was is asked as of the line that registered it."""
    layers = names_alike(count)
    lots = [
        line
        for number, layer in enumerate(layers)
        for line in (f"layer {layer}", f"register p{number} {regions.box((0, 0, 0), (9, 9, 9))}", f"retire p{number}")
    ]
    return lots + [line for number, layer in enumerate(layers) for line in (f"layer {layer}", f"asof {3 * number + 2} 4 4 4 1")]


def generations(count):
    """So many lots that one place has, one after the other: it is cut in two and joined again, over and over."""
    lines = [f"register p0 {regions.box((0, 0, 0), (10, 10, 10))}"]
    for number in range(count // 3):
        lines += [f"cut p{number} half 1 0 0 -5 a{number} b{number}", f"consolidate p{number + 1} 2 a{number} b{number}"]
    return lines


def generations_then(count):
    """The same, and whose a point of it was after each line."""
    lines = generations(count)
    return lines + [f"asof {number + 1} 7 7 7 1" for number in range(len(lines))]


def long_lineage(count):
    """The same, and the lineage of the last lot, which is all of them."""
    return generations(count) + [f"history p{count // 3}"]


def lineages(count):
    """A row of boxes of one unit, and the lineage of each, which is itself."""
    return unit_boxes(count) + mixed([f"history p{number}" for number in range(count)])


def retired(count):
    """A row of boxes of one unit, which are all retired, in no order of place."""
    return unit_boxes(count) + mixed([f"retire p{number}" for number in range(count)])


def retired_asked(word, count):
    """The same but for two boxes side by side, of which is asked as often as there are lots."""
    kept = {f"retire p{number}" for number in (count // 2, count // 2 + 1)}
    return [line for line in retired(count) if line not in kept] + [word.format(count // 2, count // 2 + 1)] * count


def touched_each(count):
    """A row of boxes of one unit, and what each touches, in no order of place."""
    return unit_boxes(count) + mixed([f"neighbours p{number}" for number in range(count)])


def cut_each(count):
    """A row of boxes of one unit, each of which is cut, in no order of place, and its halves joined again."""
    cuts = [[f"cut p{n} half 0 2 0 -1 a{n} b{n}", f"consolidate c{n} 2 b{n} a{n}"] for n in range(count // 4)]
    return unit_boxes(count // 4) + [line for lines in mixed(cuts) for line in lines]


def rows_joined(word, count):
    """Two rows of boxes, each in contact with one of the other row alone, registered row by row; then they are asked for."""
    rows = [
        f"register {name}{number} {regions.box((3 * number, south, 0), (3 * number + 1, south + 1, 1))}"
        for name, south in (("a", 0), ("b", 1))
        for number in range(count // 2)
    ]
    return rows + [word]


def names(count):
    """So many names, each of a box, and whether a point is in each of them, in no order."""
    lets = [f"let x{number} = {regions.box((number, 0, 0), (number + 1, 1, 1))}" for number in range(count)]
    return lets + mixed([f"member name x{number} {number} 0 0 1" for number in range(count)])


def layers(count):
    """A parcel of 1,024 equal boxes in each of so many layers, and then all are audited."""
    lines = [f"let x0 = {regions.box((0, 0, 0), (9, 9, 9))}"]
    lines += [f"let x{number + 1} = or name x{number} name x{number}" for number in range(10)]
    for number in range(count):
        lines += [f"layer q{number}", f"register p{number} name x10"]
    return lines + ["audit"]


def lenses(count):
    """Flat bodies between two caps of 16 planes each, one behind the other on a diagonal, and then all are audited: a
    refutation of two of them wants terms of both."""
    draw = random.Random(3)
    return [f"register p{number} {lens(draw, number)}" for number in range(count)] + ["audit"]


def lens(draw, number, faces=16, size=8_000_000, half=500):
    """A body of two caps whose planes have normals near the diagonal, of both signs."""
    centre, slant = number * 2.2 * half, size // 50
    planes = []
    for sign in (1, -1):
        for _ in range(faces):
            turned = [draw.randint(-slant, slant) for _ in range(3)]
            normal = [sign * (size + turn) for turn in turned]
            length = math.hypot(*normal)
            out = length * half * (0.25 + 0.35 * sum(turn * turn for turn in turned) / slant**2)
            planes.append(f"half {-normal[0]} {-normal[1]} {-normal[2]} {int(sum(normal) * centre + out)}")
    return regions.joined("and", planes)


def tower(count):
    """A tower of so many storeys, subdivided at once into the units of each and all that is left as common property."""
    breadth, depth = UNITS * EDGE, 2 * DEPTH + 4_000
    boxes = [
        regions.box((EDGE * column, south, HEIGHT * storey), (EDGE * (column + 1), south + DEPTH, HEIGHT * (storey + 1)))
        for storey in range(count)
        for column in range(UNITS)
        for south in (0, depth - DEPTH)
    ]
    children = [f"u{number} {box}" for number, box in enumerate(boxes)]
    return [
        f"register tower {regions.box((0, 0, 0), (breadth, depth, HEIGHT * count))}",
        f"let units = {regions.joined('or', boxes)}",
        f"subdivide tower {len(boxes) + 1} {' '.join(children)} common minus lot tower name units",
    ]


def directions(count):
    """So many directions from the middle of a square to its edges, four times a whole number, one behind the other."""
    side = count // 4
    marks = [-SQUARE + 2 * SQUARE * step // side for step in range(side)]
    return (
        [(SQUARE, mark) for mark in marks]
        + [(-mark, SQUARE) for mark in marks]
        + [(-SQUARE, -mark) for mark in marks]
        + [(mark, -SQUARE) for mark in marks]
    )


def wedges(count):
    """A square cut into so many wedges round its middle, each registered. All touch there, and the boxes of many meet."""
    square = regions.box((-SQUARE, -SQUARE, 0), (SQUARE, SQUARE, 1000))
    rays = directions(count)
    return [
        f"register w{number} and {square} and half {-ray[1]} {ray[0]} 0 0 half {after[1]} {-after[0]} 0 0"
        for number, (ray, after) in enumerate(zip(rays, rays[1:] + rays[:1]))
    ]
