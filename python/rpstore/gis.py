"""GeoJSON of sections and lots. `ogr2ogr` takes it into every other format that GDAL writes."""
from __future__ import annotations

import functools
from fractions import Fraction
from typing import Any, Callable, Iterable, Optional

from . import Fault, outline, surface, told
from .lots import Body, Seen
from .place import Place
from .points import Number, Point
from .times import Times

Geometry = dict[str, Any]


def on_map(place: Place, point: Point) -> list[float]:
    """Metres on the map, to the micrometre, of a point of a plan or of space."""
    return [float(told.decimal(place.metres(Fraction(number, point[-1]), axis), 6)) for axis, number in enumerate(point[:-1])]


def closed(ring: Iterable[Point], placed: Callable[[Point], list[float]]) -> list[list[float]]:
    """Returns a ring on the map, which ends with the point at which it begins."""
    points = [placed(point) for point in ring]
    return [*points, points[0]]


def multipolygon(place: Place, regions: Iterable[outline.Outline]) -> Geometry:
    """Returns the coordinates of outer rings with their holes, outer rings counterclockwise, as GeoJSON needs them."""
    # A corner of a boundary is one of three faces or more.
    placed = functools.lru_cache(maxsize=None)(lambda point: on_map(place, point))
    return {"type": "MultiPolygon", "coordinates": [[closed(ring, placed) for ring in (outer, *holes)] for outer, holes in regions]}


def metres(units: Number) -> float:
    return float(told.decimal(Fraction(units) / 10**3, 6))


def square_metres(units: Fraction) -> float:
    return float(told.decimal(units / 10**6, 6))


def cubic_metres(units: Fraction) -> float:
    return float(told.decimal(units / 10**9, 9))


def attributes(body: Body) -> dict[str, Any]:
    """Returns the properties of a body. Areas and volumes are exact until they are printed here, to the square and
    cubic millimetre."""
    low, high = body.box
    return {
        "id": body.label, "layer": body.layer, "born": body.born, "origins": ",".join(body.origins) or None, "base": metres(low[2]),
        "height": metres(high[2]), "area": square_metres(body.area), "volume": cubic_metres(body.volume),
    }


def collection(place: Place, features: Iterable[tuple[dict[str, Any], Optional[Geometry]]]) -> dict[str, Any]:
    """Returns properties and geometries as features, with the grid and the local origin of the place."""
    found: dict[str, Any] = {"type": "FeatureCollection"}
    if place.epsg:
        # GDAL, QGIS and PostGIS read this member, which GeoJSON had before it knew degrees alone.
        found["crs"] = {"type": "name", "properties": {"name": f"urn:ogc:def:crs:EPSG::{place.epsg}"}}
    if place.is_given:
        found["origin"] = [float(place.east), float(place.north)]
    found["features"] = [{"type": "Feature", "properties": properties, "geometry": geometry} for properties, geometry in features]
    return found


def bounded(seen: Seen) -> list[Body]:
    """Returns the bodies that end within the domain cube."""
    found = [body for body in seen.bodies if body.is_bounded]
    if not found:
        raise seen.without("no lot and no region with an end")
    return found


def sections(seen: Seen) -> dict[str, Any]:
    """Returns a feature for each line `section` whose region has points at its height: the lot, or how the region is
    called, its layer, the line, the height and the area."""
    shown = [each for each in seen.slices if each.polygons and each.is_bounded]
    if not shown:
        raise Fault("the report has no line `section` that shows something", 1, "add a line to the script, as `section lot X 1.500`, which cuts the lot X at 1.5 m")
    return collection(seen.place, [
        ({"id": each.label, "layer": each.layer, "line": each.number, "height": metres(each.height), "area": square_metres(each.area)},
         multipolygon(seen.place, each.outlines)) for each in shown])


def covered(place: Place, body: Body) -> Geometry:
    """Returns what a body covers in plan."""
    return multipolygon(place, outline.outlines(body.footprint))


def boundary(place: Place, body: Body) -> Geometry:
    """Returns the boundary of a body, as polygons with heights. Each edge of one is an edge of another, the other way round, and each
    is flat, as databases want it of a solid."""
    faces = surface.faces(body.facets, lambda point: on_map(place, point))
    return multipolygon(place, [(outer, holes) for outer, *holes in faces])


# What a word shows of each lot.
GEOMETRIES: dict[str, Callable[[Place, Body], Geometry]] = {"lots": covered, "faces": boundary}


def features(seen: Seen, geometry: Callable[[Place, Body], Geometry]) -> dict[str, Any]:
    """Returns a feature for each lot, with a `geometry`."""
    return collection(seen.place, [(attributes(body), geometry(seen.place, body)) for body in bounded(seen)])


def footprints(seen: Seen) -> dict[str, Any]:
    """Returns a feature for each lot: the area that it covers in plan, and its lowest and highest height."""
    return features(seen, covered)


def faces(seen: Seen) -> dict[str, Any]:
    """Returns a feature for each lot: its boundary, as polygons with heights."""
    return features(seen, boundary)


def lifetimes(found: Times, geometry: Callable[[Place, Body], Geometry]) -> dict[str, Any]:
    """Returns a feature for each lot that ever was, with a `geometry`; the lines at which it was born and ended, and
    the days of the notes before them, each None if there is none. On the day `ends` it is no longer there."""
    def told_of(body: Body) -> dict[str, Any]:
        return {**attributes(body), "ended": body.ended, "begins": found.day_of(body.born) or None, "ends": found.day_of(body.ended) or None}

    place, bodies = found.seen.place, bounded(found.seen)
    return collection(place, [(told_of(body), geometry(place, body)) for body in sorted(bodies, key=lambda body: body.born)])
