"""A solid of a model as expressions: its corners in whole millimetres, planes for its faces, and whether its corners stay.

A corner is rounded to the millimetre, once. A face has the plane of its corners if these lie in one that fits a `half`. If not,
it has a plane that the file states for it, or one that is as near as `--planar` allows; otherwise the solid is refused. With
such planes the corners are where they meet, and it is seen how far each is from the place that the model has.
"""
from __future__ import annotations

from collections import defaultdict
from fractions import Fraction
from math import isqrt
from typing import Iterable, NamedTuple, Optional

from . import plane, shape, solid_region, told
from .command import spelled
from .model import Shell, Solid
from .model import Point as MapPoint
from .plane import canonical, distance, nearest
from .points import Number, Point, Ring
from .rings import MOST_CORNER, MOST_SIDE, Unfit
from .shape import Cell, Half
from .solid import Face, convex_parts, pieces_of, see_closed, volume_of
from .solid import spelled as at_metres

# How far a corner that was rounded lies at most from its plane along the steepest axis, in steps of the file: half a step on
# each axis, and no axis leads away faster.
ROUNDING = Fraction(3, 2)


class Rules(NamedTuple):
    """The local origin in units; the planes that the file states; a step of its coordinates in units; and how far corners may be
    moved in units, or None."""

    origin: tuple[int, int]
    stated: list[Half]
    step: Fraction
    planar: Optional[Fraction]


class Moved(NamedTuple):
    """A corner that was moved: its place in metres, and how far in millimetres, rounded up to the micrometre."""

    at: str
    far: str


class Region(NamedTuple):
    """A solid as expressions of which it is the union, from where to where it reaches, and the corners that were moved, those
    furthest first."""

    operands: list[str]
    low: Fraction
    high: Fraction
    moved: list[Moved]


# ---- corners

def corner_of(point: MapPoint, rules: Rules) -> Point:
    """Returns a point in units from the local origin: with integer coordinates, unless the file states planes.

    # Errors
    `Unfit` if it is too far away.
    """
    units = [number * 1000 if rules.stated else Fraction(nearest(number * 1000)) for number in point]
    found = [number - begin for number, begin in zip(units, (*rules.origin, 0))]
    if max(abs(number) for number in found[:2]) > MOST_CORNER or abs(found[2]) > MOST_SIDE:
        raise Unfit(f"a corner is more than {spelled(MOST_CORNER)} m east, west, north or south of the origin, or {spelled(MOST_SIDE)} m above or below",
                    told.metres(units[0]) + " " + told.metres(units[1]), "give --origin E N near it, or divide the model")
    return plane.whole([*found, 1])


def ring_of(ring: Iterable[MapPoint], rules: Rules) -> Ring:
    """Returns the corners of a ring, without corners that repeat the previous corner."""
    found: list[Point] = []
    for point in ring:
        corner = corner_of(point, rules)
        if found[-1:] != [corner]:
            found.append(corner)
    while len(found) > 1 and found[0] == found[-1]:
        found.pop()
    return found


def shell_of(name: str, shell: Shell, is_outer: bool, rules: Rules) -> list[list[Ring]]:
    """Returns the rings of the faces of a surface, turned so that they go round counterclockwise seen from outside the solid.

    # Errors
    `Unfit` if the surface is not closed or encloses nothing.
    """
    found = [[ring_of(ring, rules) for ring in face] for face in shell]
    see_closed(name, found)
    volume = volume_of([[ring for ring in face if len(ring) > 2] for face in found])
    if not volume:
        raise Unfit("a surface encloses no volume", name)
    return found if (volume > 0) == is_outer else [[ring[::-1] for ring in face] for face in found]


# ---- planes

def is_whole(face: list[Ring]) -> bool:
    return all(corner[3] == 1 for ring in face for corner in ring)


def stated_plane(corners: list[Point], rules: Rules) -> Optional[plane.Fit]:
    """Returns the plane, among the planes that the file states, to which corners were rounded, or None."""
    fits = [plane.fit_of(canonical(half), corners) for half in rules.stated if plane.fits(half)]
    best = min(fits, key=lambda fit: (fit.off, fit.half), default=None)
    return best if best and best.off <= ROUNDING * rules.step else None


def up_to(number: Fraction, digits: int = 3) -> str:
    """Returns a number as a decimal that is not less."""
    scale: int = 10**digits
    return told.decimal(Fraction(-(-number * scale // 1), scale), digits)


class Bent(Unfit):
    """Why a face has no plane: how far the nearest one lies from a corner."""

    def __init__(self, name: str, fit: plane.Fit, exact: Half, is_plane: bool):
        self.off = fit.off
        far = f"the nearest plane found lies {fit.off} mm along {fit.axis} from its corner {at_metres(fit.corner)}"
        if is_plane:
            super().__init__(f"the plane of a face has numbers over {plane.MOST_NORMAL}, which no `half` may have",
                             f"{name}: {plane.greatest(exact[:3])}; {far}")
        else:
            super().__init__("a face is not plane in whole millimetres", f"{name}: {far}")


def see_planes(bent: list[Bent]) -> None:
    """Checks that all faces have a plane.

    # Errors
    `Unfit` if some are `bent`: the furthest from a plane, how many they are, and what may help.
    """
    if bent:
        worst = max(bent, key=lambda each: each.off)
        others = f"; {len(bent) - 1} other face{'s have' if len(bent) > 2 else ' has'} none either" if len(bent) > 1 else ""
        raise Unfit(worst.cause, f"{worst.seen}{others}; --planar {up_to(worst.off)} or more may do")


def fit_of(name: str, face: list[Ring], direction: tuple[Number, ...], rules: Rules) -> plane.Fit:
    """Returns the plane of a face.

    # Errors
    `Unfit` if there is none that is near enough.
    """
    corners = [corner for ring in face for corner in ring]
    stated = stated_plane(corners, rules)
    if stated:
        return stated
    if rules.stated and not is_whole(face):
        raise Unfit("the file states no plane for a face whose corners are not whole", name)
    exact = plane.through(corners[0], direction)
    own = plane.fit_of(exact, corners)
    if not own.off and plane.fits(exact):
        return own
    fit = plane.near(direction, corners, rules.planar or Fraction(0))
    if rules.planar is None or fit.off > rules.planar:
        raise Bent(name, fit, exact, not own.off)
    return fit


def half_of(name: str, face: list[Ring], rules: Rules) -> tuple[Optional[Half], bool]:
    """Returns the half-space of a face that holds the solid next to it, and whether its corners lie in its plane; None if the face has
    no area.

    # Errors
    `Unfit` if there is no plane that is near enough.
    """
    direction = plane.normal(face[0])
    if not any(direction):
        if any(any(plane.normal([face[0][0], p, q])) for p, q in zip(face[0][1:], face[0][2:])):
            raise Unfit("a face crosses itself", name)
        return None, True
    fit = fit_of(name, face, direction, rules)
    return inward(fit.half, direction), not fit.off


def inward(half: Half, direction: tuple[Number, ...]) -> Half:
    """Returns the half-space of a plane that is on the other side than a direction."""
    return shape.turned(half) if sum(a * b for a, b in zip(half, direction)) > 0 else half


def faces_of(name: str, solid: Solid, rules: Rules) -> tuple[list[Face], bool]:
    """Returns the faces of a solid with their planes, and whether all corners lie in their planes."""
    found, is_exact, bent = [], True, []
    for number, shell in enumerate(solid):
        of = (f" of shell {number + 1}" if len(solid) > 1 else "") + name
        for place, face in enumerate(shell_of(f"the surface{of}", shell, number == 0, rules), 1):
            rings = [ring for ring in face if len(ring) > 2]
            if rings:
                called = f"face {place}{of} at {at_metres(rings[0][0])}"
                try:
                    half, is_on = half_of(called, rings, rules)
                except Bent as unfit:
                    bent.append(unfit)
                    continue
                found += [Face(called, rings, half)] if half else []
                is_exact = is_exact and is_on
    see_planes(bent)
    return found, is_exact


# ---- faces that share a plane

class Shared:
    """Faces that share a plane: their corners, and the direction of the greatest one."""

    def __init__(self, face: Face):
        self.faces, self.half, self.direction = [face], face.half, plane.normal(face.rings[0])
        self.corners = corners_of(face)

    def takes(self, face: Face, most: Fraction) -> bool:
        """Adds a face if there is a plane from which no corner is further than `most`, and returns whether there is."""
        corners = corners_of(face)
        if any(distance(self.half, corner) > 3 * most for corner in corners):
            return False
        fit = plane.near(self.direction, self.corners + corners, most)
        if fit.off > most:
            return False
        self.faces.append(face)
        self.half, self.corners = fit.half, self.corners + corners
        return True


def corners_of(face: Face) -> list[Point]:
    return [corner for ring in face.rings for corner in ring]


def with_shared_planes(faces: list[Face], most: Fraction) -> list[Face]:
    """Returns the faces, the greatest one first, with one plane for those that lie nearly in one. Two planes that are nearly the same
    would meet far from all corners."""
    groups: list[Shared] = []
    for face in sorted(faces, key=lambda face: sum(number * number for number in plane.normal(face.rings[0])), reverse=True):
        if not any(group.takes(face, most) for group in groups):
            groups.append(Shared(face))
    return [Face(face.name, face.rings, inward(group.half, plane.normal(face.rings[0]))) for group in groups for face in group.faces]


# ---- whether corners stay

class Near:
    """Corners among which the nearest one is sought."""

    def __init__(self, corners: Iterable[Point]):
        self.exact = [plane.numbers(corner) for corner in corners]
        self.about = [tuple(map(float, corner)) for corner in self.exact]

    def square(self, corner: Point) -> Fraction:
        """Returns the square of the distance from a corner to the nearest of these corners."""
        at = plane.numbers(corner)
        x, y, z = map(float, at)
        place = min(range(len(self.about)), key=lambda place: sum((a - b)**2 for a, b in zip(self.about[place], (x, y, z))))
        return Fraction(sum((a - b)**2 for a, b in zip(at, self.exact[place])))


def length(square: Fraction) -> str:
    """Returns the root of a square, rounded up to three digits."""
    most = -(-square * 10**6 // 1)
    root = isqrt(most)
    return told.decimal(Fraction(root + (root * root < most), 1000), 3)


def planes_at(faces: list[Face], tolerance: Fraction) -> dict[Point, list[Half]]:
    """Returns for each corner the planes of its faces, without those in which the corners of a face before lie, too."""
    found: dict[Point, list[Half]] = defaultdict(list)
    for face in faces:
        corners = [corner for ring in face.rings for corner in ring]
        for corner in dict.fromkeys(corners):
            if not any(all(distance(half, each) <= tolerance for each in corners) for half in found[corner]):
                found[corner].append(face.half)
    return found


def see_corners(cells: list[Cell], faces: list[Face], tolerance: Fraction, reach: Fraction) -> list[Moved]:
    """Returns how far the corners of a solid have moved, for each corner that moved.

    # Errors
    `Unfit` if one moved further than `reach`, or if there is one that the model does not have.
    """
    made = {corner for facet in shape.facets(cells) for ring in facet.rings for corner in ring}
    had, near = planes_at(faces, tolerance), Near(made)
    moved = []
    for corner, planes in had.items():
        off = max(distance(half, corner) for half in planes)
        square = near.square(corner) if len(planes) > 2 else off**2
        if square > reach**2:
            raise Unfit("a corner would be moved too far", f"{at_metres(corner)} by {length(square)} mm")
        if square:
            moved.append((square, Moved(at_metres(corner), length(square))))
    there = Near(had)
    for corner in sorted(made):
        if there.square(corner) > reach**2:
            raise Unfit("planes would meet in a corner that the model does not have",
                        f"{at_metres(corner)}, {length(there.square(corner))} mm from the nearest one")
    return [move for _, move in sorted(moved, key=lambda each: each[0], reverse=True)]


# ---- the region

def near_parts(name: str, faces: list[Face], rules: Rules) -> tuple[list[Cell], list[Moved]]:
    """Returns the convex parts of a solid some of whose corners do not lie in the planes of its faces, and the corners that were moved.

    # Errors
    `Unfit` if a corner moves too far, or the surface crosses itself.
    """
    reach = rules.step if rules.stated else rules.planar or Fraction(0)
    tolerance = ROUNDING * rules.step if rules.stated else reach
    cells = convex_parts(name, faces, [piece for face in faces for piece in pieces_of(face)], tolerance)
    if not cells:
        raise Unfit("nothing is left of a solid", name)
    moved = see_corners(cells, faces, tolerance, reach)
    return cells, [] if rules.stated else moved


def near_or_shared(name: str, faces: list[Face], rules: Rules) -> tuple[list[Cell], list[Moved]]:
    """Returns the convex parts, and what was moved, with a plane for each face; or if that does not do, with planes that faces share."""
    try:
        return near_parts(name, faces, rules)
    except Unfit as unfit:
        if rules.stated:
            raise
        try:
            return near_parts(name, with_shared_planes(faces, rules.planar or Fraction(0)), rules)
        except Unfit:
            raise unfit


def solid_of(name: str, solid: Solid, rules: Rules) -> Region:
    """Returns a solid, the end of whose name is `name`, as expressions.

    # Errors
    `Unfit` if a face, a surface or a corner does not do.
    """
    faces, is_exact = faces_of(name, solid, rules)
    heights = [Fraction(corner[2], corner[3]) for face in faces for corner in corners_of(face)]
    low, high = min(heights), max(heights)
    if not is_exact:
        cells, moved = near_or_shared(f"solid{name}", faces, rules)
        return Region(list(map(solid_region.part, cells)), low, high, moved)
    pieces = [piece for face in faces for piece in pieces_of(face)]
    operands = solid_region.prisms(pieces)
    return Region(list(map(solid_region.part, convex_parts(f"solid{name}", faces, pieces))) if operands is None else operands, low, high, [])
