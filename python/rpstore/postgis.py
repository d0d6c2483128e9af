"""SQL that puts lots into PostGIS: a table of lots in plan, and one of solids, of which SFCGAL computes volumes and intersections."""
from __future__ import annotations

from dataclasses import dataclass
from fractions import Fraction
from typing import Any, Iterable, Iterator, Optional

from . import city, gis, shape, surface, told
from .lots import Body, Seen
from .place import Place
from .times import Times

SCHEMA = "rpstore"
# One run replaces all rows. Tables, indexes, and the views and rights that somebody added stay.
HEAD = """-- Lots of rpstore for PostGIS. Another run replaces all rows; tables, views on them and rights stay.
BEGIN;
SET LOCAL client_min_messages = warning;
CREATE EXTENSION IF NOT EXISTS postgis;
CREATE EXTENSION IF NOT EXISTS postgis_sfcgal;
CREATE SCHEMA IF NOT EXISTS {schema};
CREATE TABLE IF NOT EXISTS {schema}.lot (
    id text PRIMARY KEY, layer text NOT NULL, born integer NOT NULL, ended integer, begins date, ends date, origins text[] NOT NULL,
    base numeric NOT NULL, height numeric NOT NULL, area numeric NOT NULL, volume numeric NOT NULL, plan geometry(MultiPolygon, {srid}) NOT NULL);
CREATE TABLE IF NOT EXISTS {schema}.solid (
    lot text NOT NULL REFERENCES {schema}.lot, part integer NOT NULL, body geometry(PolyhedralSurfaceZ, {srid}) NOT NULL, PRIMARY KEY (lot, part));
CREATE INDEX IF NOT EXISTS lot_plan ON {schema}.lot USING gist (plan);
CREATE INDEX IF NOT EXISTS solid_body ON {schema}.solid USING gist (body gist_geometry_ops_nd);
TRUNCATE {schema}.lot, {schema}.solid;
"""
TAIL = "COMMIT;\n"


@dataclass(frozen=True)
class Row:
    """A lot, and the days at which it came and ended, "" if they are not known."""

    body: Body
    begins: str = ""
    ends: str = ""


# ---- texts of SQL

def quoted(text: str) -> str:
    return "'" + text.replace("'", "''") + "'"


def optional(value: Any) -> str:
    """Returns a value, or NULL if there is none."""
    return "NULL" if value in (None, "") else str(value) if isinstance(value, int) else quoted(value)


def array(texts: Iterable[str]) -> str:
    return f"ARRAY[{', '.join(map(quoted, texts))}]::text[]"


def ring_text(ring: list[list[float]]) -> str:
    return f"({','.join(' '.join(map(repr, corner)) for corner in ring)})"


def polygons_text(coordinates: list[list[list[list[float]]]]) -> str:
    """Returns the coordinates of a MultiPolygon of GeoJSON as WKT has them."""
    return f"({','.join(f'''({','.join(map(ring_text, polygon))})''' for polygon in coordinates)})"


# ---- solids

def solids(body: Body) -> Iterator[list[shape.Facet]]:
    """Yields boundaries that make up a body, each of one closed surface: a piece of the body; or, of a piece with a cavity or with
    arms that touch in a line, each of its convex parts. PostGIS has no solid with a cavity."""
    if len(body.cells) == 1:
        yield body.facets
        return
    for group in city.hanging(body.cells):
        whole = city.shells(group)
        if whole is not None and len(whole) == 1:
            yield shape.facets(group)
        else:
            yield from (shape.facets([cell]) for cell in group)


def solid_line(place: Place, body: Body, part: int, facets: list[shape.Facet]) -> str:
    faces = gis.multipolygon(place, [(outer, holes) for outer, *holes in surface.faces(facets, lambda point: gis.on_map(place, point))])
    text = f"POLYHEDRALSURFACE Z{polygons_text(faces['coordinates'])}"
    return f"INSERT INTO {SCHEMA}.solid VALUES ({quoted(body.label)}, {part}, ST_MakeSolid(ST_GeomFromText({quoted(text)}, {place.epsg or 0})));"


# ---- lots

def lot_line(place: Place, row: Row) -> str:
    """Returns the line that inserts a lot. Numbers are exact until they are printed here."""
    body = row.body
    low, high = body.box
    plan = f"MULTIPOLYGON{polygons_text(gis.covered(place, body)['coordinates'])}"
    values = [
        quoted(body.label), quoted(body.layer), body.born, optional(body.ended), optional(row.begins), optional(row.ends), array(body.origins),
        told.decimal(Fraction(low[2]) / 10**3, 6), told.decimal(Fraction(high[2]) / 10**3, 6), told.decimal(body.area / 10**6, 6),
        told.decimal(body.volume / 10**9, 9), f"ST_GeomFromText({quoted(plan)}, {place.epsg or 0})"]
    return f"INSERT INTO {SCHEMA}.lot VALUES ({', '.join(map(str, values))});"


def rows_of(seen: Seen, found: Optional[Times]) -> list[Row]:
    """Returns the lots that are shown; their days if all lots that ever existed are `found`.

    # Errors
    `Fault` if no lot is shown.
    """
    bodies = [body for body in gis.bounded(seen) if body.is_lot]
    if not bodies:
        raise seen.without("no lot with an end")
    return [Row(body, found.day_of(body.born), found.day_of(body.ended)) if found else Row(body) for body in bodies]


def left_out(seen: Seen) -> list[str]:
    """Returns a line for standard error on the lots that have no end, and so no row."""
    far = [body.label for body in seen.bodies if body.is_lot and not body.is_bounded]
    return [f"no row has {told.few(far)}: a lot that reaches the end of the domain cube has no end"] if far else []


def sql(seen: Seen, found: Optional[Times] = None) -> str:
    """Returns SQL that puts the lots into PostGIS, in one transaction."""
    rows = rows_of(seen, found)
    lines = [lot_line(seen.place, row) for row in rows]
    lines += [solid_line(seen.place, row.body, part, facets) for row in rows for part, facets in enumerate(solids(row.body), 1)]
    return HEAD.format(schema=SCHEMA, srid=seen.place.epsg or 0) + "\n".join([*lines, TAIL])
