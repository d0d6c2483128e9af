"""The grid of a plan, and of the register to which it goes; the local origin of a script."""
import math
from decimal import Decimal
from typing import Any, Callable, Optional, Sequence

from . import Fault
from .command import spelled
from .rings import MOST_CORNER, rounded, units

try:
    from pyproj import CRS, Transformer
    from pyproj.exceptions import CRSError, ProjError
    MISSING = None
except ImportError as error:
    MISSING = error

# A CRS of pyproj, which may not be there, or None.
Grid = Any
Point = tuple[float, float]
Ring = list[Point]
# The word in the place of a grid for coordinates that are metres of no grid.
METRES = "metres"
# Metres on each side of the middle that are taken of a plan that is too wide.
CLIPPED = 4000
CLIP = ("the plan reaches over {wide} m from west to east and {high} m from south to north, and a register over {most} m; "
        "this takes what meets its middle: ogr2ogr -spat {box}{grid} part.gpkg {path}")


def named(word: Optional[str]) -> Grid:
    try:
        return CRS.from_user_input(word) if word and word != METRES else None
    except CRSError as error:
        raise Fault(f"no grid has the name {word!a}: {error}", 5, "give its number, as EPSG:25832")


def unit(grid: Grid) -> str:
    """Returns the unit of a grid's first axis."""
    return str(grid.axis_info[0].unit_name) if grid.axis_info else "metre"


def at_middle(found: Grid, points: Sequence[Point]) -> str:
    """Returns a grid in metres that would do for points in a grid: the zone of UTM in which their middle lies."""
    try:
        x, y = ((min(axis) + max(axis)) / 2 for axis in [*zip(*points)][:2])
        east, north = Transformer.from_crs(found, "EPSG:4326", always_xy=True).transform(x, y, errcheck=True)
    except (ProjError, ValueError):
        return ""
    if not (abs(east) <= 180 and abs(north) <= 84):
        return ""
    return f", as EPSG:{(32600 if north >= 0 else 32700) + int((east + 180) // 6) % 60 + 1} would do here"


def see_metres(points: Sequence[Point]) -> None:
    """Checks that the numbers of a plan that names no grid can be metres.

    # Errors
    `Fault` if all could be degrees, and at least half have more than three digits after the point.
    """
    moved, count = rounded(point[:2] for point in points)
    if 0 < count <= 2 * moved and all(abs(x) <= 180 and abs(y) <= 90 for x, y, *_ in points):
        raise Fault(f"the plan names no grid, and its numbers may be degrees: all are from -180 to 180, and {moved} of {count} have more than three digits "
                    f"after the point. Nothing was written: --from EPSG:4326 says that they are degrees, --from {METRES} that they are metres", 5)


def grids(given: str, source: Optional[str], target: Optional[str], points: Sequence[Point]) -> tuple[Grid, Grid]:
    """Returns the grid of the plan's points, named by the file or by --from, and the grid of the register, named by
    --to or the same. A register is in metres."""
    found = named(source or given)
    if not (source or given):
        see_metres(points)
    wanted = named(target) or found
    if wanted is not None and found is None:
        raise Fault("the plan does not say in which grid its coordinates are", 5, "--from EPSG:NUMBER says it")
    if wanted is None or unit(wanted) == "metre":
        return found, wanted
    what = "in degrees" if wanted.is_geographic else f"in the unit {unit(wanted)}"
    if target:
        raise Fault(f"{wanted.name} is {what}, and a register is in metres", 5, f"give --to a grid in metres{at_middle(found, points)}")
    beyond = wanted.is_geographic and any(abs(x) > 180 or abs(y) > 90 for x, y, *_ in points)
    if beyond:
        raise Fault(f"the plan is {what}, of {wanted.name}, and has no such numbers", 5, f"--from EPSG:NUMBER says in which grid it is, --from {METRES} that it is "
                    "in metres of none")
    raise Fault(f"the plan is {what}, of {wanted.name}, and a register in metres", 5, f"--to EPSG:NUMBER names its grid{at_middle(found, points)}"
                + (f"; --from {METRES} says that the plan is in metres of no grid" if wanted.is_geographic else ""))


def projection(found: Grid, wanted: Grid) -> Callable[[Ring], Ring]:
    """Returns the function that brings a ring from its grid to the grid of the register. It uses only two coordinates
    of each point."""
    if found is None or found == wanted:
        return lambda ring: [(point[0], point[1]) for point in ring]
    try:
        transformer = Transformer.from_crs(found, wanted, always_xy=True, allow_ballpark=False)
    except ProjError:
        raise Fault(f"PROJ knows only roughly how {found.name} lies to {wanted.name}", 5, "--from EPSG:NUMBER says better in which grid the plan is")

    def projected(ring: Ring) -> Ring:
        easts, norths = [*zip(*ring)][:2]
        try:
            return [*zip(*transformer.transform(easts, norths, errcheck=True))]
        except ProjError as error:
            raise Fault(f"the plan cannot be projected from {found.name} to {wanted.name}: {error}", 5, "see whether --from names the grid of the plan")

    return projected


def code(grid: Grid) -> Optional[int]:
    """Returns the EPSG number of a grid, if it is certain, or the number of a grid with the same name and nearly the
    same numbers."""
    sure, likely = grid.to_epsg(), grid.to_epsg(min_confidence=50)
    number: Optional[int] = sure or (likely if likely and CRS.from_epsg(likely).name == grid.name else None)
    return number


# ---- the origin

def near(number: Decimal, step: int) -> int:
    """Returns the multiple of a step that is nearest to a number."""
    return int((number / step).to_integral_value() * step)


def chosen_origin(points: Sequence[Point]) -> tuple[int, int]:
    """Returns the first of these origins, in metres, from which all points are within the bounds, or else the last: 0
    0; whole kilometres, then whole metres, at the middle; whole kilometres near most of the points."""
    axes = [sorted(Decimal(repr(number)) for number in numbers) for numbers in zip(*points)]
    middle = [(axis[0] + axis[-1]) / 2 for axis in axes]
    most = [axis[len(axis) // 2] for axis in axes]
    tried = [(0, 0)] + [(near(at[0], step), near(at[1], step)) for at, step in ((middle, 1000), (middle, 1), (most, 1000))]
    return next((at for at in tried if all(abs(units(end) - 1000 * origin) <= MOST_CORNER for axis, origin in zip(axes, at)
                                           for end in (axis[0], axis[-1]))), tried[-1])


def how_to_clip(points: Sequence[Point], origin: tuple[int, int], wanted: Grid, path: str) -> list[str]:
    """Returns where points reach further than a register: how far, and the command that takes what is near the point
    next to an origin in units."""
    reach = [math.ceil(max(axis) - min(axis)) for axis in zip(*points)]
    if max(reach) * 1000 <= 2 * MOST_CORNER:
        return []
    middle = min(points, key=lambda point: sum(abs(number - at / 1000) for number, at in zip(point, origin)))
    box = " ".join(str(round(at) + way * CLIPPED) for way in (-1, 1) for at in middle)
    number = code(wanted) if wanted is not None else None
    return [CLIP.format(wide=reach[0], high=reach[1], most=spelled(2 * MOST_CORNER), box=box, grid=f" -spat_srs EPSG:{number}" if number else "", path=path)]
