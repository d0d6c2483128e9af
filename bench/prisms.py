"""Scripts about prisms that are timed: each shows the parts of one prism, or of a storey of equal flats.

A script of a kind is made of one number alone: how many corners the prism has, or how many flats there are. Two runs time
the same work. None of them meets a limit of the language.
"""
import math

import regions

# How far the corners of a round body lie from its middle, and the inner ones of a star.
FAR, NEAR = 8_000_000, 3_000_000
# By how much of a radian a round body is turned, so that no edge is upright or level.
TURN = 0.1343642441124013
# How high a prism is, and how far apart teeth and flats are.
HEIGHT, STEP, FLAT = 3_000, 10_000, 20_000


def prism(corners):
    return f"prism 0 {HEIGHT} {len(corners)} " + " ".join(f"{x} {y}" for x, y in corners)


def show(corners):
    return ["show " + prism(corners)]


def around(count, distance):
    """So many corners round a middle; the distance from it is that of the corner's number."""
    angles = [2 * math.pi * number / count + TURN for number in range(count)]
    return [(round(distance(number) * math.cos(angle)), round(distance(number) * math.sin(angle))) for number, angle in enumerate(angles)]


def round_body(count):
    """A circle."""
    return show(around(count, lambda number: FAR))


def star(count):
    """A star: every second corner is an inner one."""
    return show(around(count, lambda number: FAR if number % 2 else NEAR))


def comb(count):
    """A comb whose teeth, of three corners each, hang down from its back."""
    teeth = [(STEP * number, -FAR if number % 2 else 0) for number in range(count - 2)]
    return show(teeth + [(teeth[-1][0], STEP), (0, STEP)])


def spiral(count):
    """A wall that winds inwards, eight corners for a turn, and comes back along its other side."""
    side = count // 2
    distances = [FAR - (FAR - NEAR) * number // side for number in range(side)]
    # A third of the way between two turns.
    breadth = 8 * (FAR - NEAR) // side // 3
    outer = [(distance, math.pi / 4 * number + TURN) for number, distance in enumerate(distances)]
    inner = [(distance - breadth, angle) for distance, angle in reversed(outer)]
    return show([(round(distance * math.cos(angle)), round(distance * math.sin(angle))) for distance, angle in outer + inner])


def crossing(count):
    """A polygon that goes to the east in a zigzag and comes back in another one, which crosses each of its edges."""
    side = count // 2
    there = [(STEP * number, STEP * (number % 2)) for number in range(side)]
    return show(there + [(x + STEP // 7, STEP - y + STEP // 3) for x, y in reversed(there)])


def chords(count):
    """A star that is drawn in one go: from each of so many corners of a circle, an odd number, to the one across."""
    ring = around(count, lambda number: FAR)
    return show([ring[number * (count // 2) % count] for number in range(count)])


def flats(count, flat):
    """A row of equal flats in one union."""
    return ["show " + regions.joined("or", [flat(FLAT * number) for number in range(count)])]


def shape(corners):
    """A flat with these corners, as many units to the east as asked for."""
    return lambda east: prism([(east + x, y) for x, y in corners])


SQUARE = [(0, 0), (12_000, 0), (12_000, 12_000), (0, 12_000)]
COURT = [(4_000, 4_000), (8_000, 4_000), (8_000, 8_000), (4_000, 8_000)]
L = [(0, 0), (12_000, 0), (12_000, 5_000), (5_000, 5_000), (5_000, 12_000), (0, 12_000)]
U = [(0, 0), (12_000, 0), (12_000, 9_000), (8_000, 9_000), (8_000, 4_000), (4_000, 4_000), (4_000, 12_000), (0, 12_000)]
# From a corner on the south side in to the court, round it, and back.
ROUND = [(4_000, 0), *COURT, COURT[0], (4_000, 0), *SQUARE[1:], SQUARE[0]]


def flats_l(count):
    """Flats with the form of an L."""
    return flats(count, shape(L))


def flats_u(count):
    """Flats with the form of a U."""
    return flats(count, shape(U))


def courts_minus(count):
    """Flats round a court that is taken away."""
    return flats(count, lambda east: f"minus {shape(SQUARE)(east)} {shape(COURT)(east)}")


def courts_edge(count):
    """Flats round a court, by one polygon with an edge that is walked twice."""
    return flats(count, shape(ROUND))
