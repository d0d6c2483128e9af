"""Reads the solids of CityJSON 1.0, 1.1 and 2.0 (cityjson.org/specs), also in lines (CityJSONSeq). Semantics and textures are
not read. Every number is exact: a vertex is its whole numbers times the scale, plus the translation, as the file spells them."""
from __future__ import annotations

import json
import re
from fractions import Fraction
from typing import Any, Iterator, NamedTuple, NoReturn, Optional, Union

from . import Fault
from .model import Choice, Exact, Face, Model, Point, Shell, Solid, Thing, exact
from .rings import Unfit

VERSIONS = ("1.0", "1.1", "2.0")
# The kinds of geometry with solids, and how many lists are round each solid.
SOLIDS = {"Solid": 0, "MultiSolid": 1, "CompositeSolid": 1}
PLANE = re.compile(r"-?[0-9]{1,30}(?: -?[0-9]{1,30}){3}")
EPSG = re.compile(r".*(?:/EPSG/[^/]*/|EPSG::?)([0-9]{4,6})")


def is_model(text: bytes) -> bool:
    """Returns whether a text may be CityJSON."""
    return text.lstrip()[:1] == b"{"


def no_number(word: str) -> NoReturn:
    raise ValueError(f"{word} is no number of JSON")


def documents(text: bytes) -> list[dict[str, Any]]:
    """Returns the JSON objects of a file: one object, or one for each line of a file in lines.

    # Errors
    `Fault` if it is no JSON.
    """
    try:
        reader = json.JSONDecoder(parse_float=Exact, parse_constant=no_number)
        whole = text.decode("utf-8-sig").strip()
        found, end = reader.raw_decode(whole)
        rest = [reader.decode(line) for line in whole[end:].splitlines() if line.strip()]
    except (ValueError, RecursionError) as error:
        raise Fault(f"the model is no JSON: {error}", 3, "export it again as CityJSON")
    if not all(isinstance(each, dict) for each in [found, *rest]):
        raise Fault("the model is no JSON object", 3, "export it again as CityJSON")
    return [found, *rest]


# ---- vertices

def placing(transform: Any) -> tuple[list[Fraction], list[Fraction]]:
    """Returns the scale and the translation of a model: 1 and 0 if it has none."""
    if transform is None:
        return [Fraction(1)] * 3, [Fraction(0)] * 3
    scale, translate = ([exact(number) for number in transform[word]] for word in ("scale", "translate"))
    if len(scale) != 3 or len(translate) != 3 or not all(scale):
        raise Unfit("the transform of the model has not three numbers each that are not 0")
    return scale, translate


def placed(vertices: Any, scale: list[Fraction], translate: list[Fraction]) -> list[Point]:
    """Returns the vertices of a model in metres on the map."""
    found = []
    for vertex in vertices:
        x, y, z = (exact(number) * step + begin for number, step, begin in zip(vertex, scale, translate))
        found.append((x, y, z))
    return found


# ---- solids

def point_at(number: Any, vertices: list[Point]) -> Point:
    if isinstance(number, bool) or not isinstance(number, int) or not 0 <= number < len(vertices):
        raise Unfit("a face has a vertex that is not there", ascii(number)[:60])
    return vertices[number]


def face_of(given: Any, vertices: list[Point]) -> Face:
    return [[point_at(number, vertices) for number in ring] for ring in given]


def solid_of(given: Any, vertices: list[Point]) -> Solid:
    return [[face_of(face, vertices) for face in shell] for shell in given]


def lod_of(geometry: dict[str, Any]) -> str:
    return str(geometry.get("lod", ""))


def chosen(geometries: list[dict[str, Any]], lod: Optional[str]) -> list[dict[str, Any]]:
    """Returns the geometries with solids of a level of detail, or of the finest level.

    # Errors
    `Unfit` if there is none.
    """
    solid = [each for each in geometries if each.get("type") in SOLIDS]
    if not solid:
        raise Unfit("no solid", ", ".join(sorted({str(each.get("type")) for each in geometries})) or "no geometry")
    levels = sorted({lod_of(each) for each in solid})
    if lod is not None and lod not in levels:
        raise Unfit(f"no solid of the level of detail {lod}", f"it has {', '.join(levels)}", "name one that it has by --lod")
    return [each for each in solid if lod_of(each) == (levels[-1] if lod is None else lod)]


def solids_of(thing: Thing, geometries: list[dict[str, Any]], vertices: list[Point], lod: Optional[str]) -> list[Solid]:
    """Returns the solids of a feature.

    # Errors
    `Unfit` if it has none, or if they do not read as CityJSON.
    """
    try:
        found = [solid_of(solid, vertices) for each in chosen(geometries, lod)
                 for solid in (each["boundaries"] if SOLIDS[each["type"]] else [each["boundaries"]])]
    except (KeyError, TypeError, AttributeError):
        raise Unfit("its geometry does not read as CityJSON")
    if not found or not all(solid and all(solid) for solid in found):
        raise Unfit("a solid without faces")
    return found


def planes_of(attributes: dict[str, Any]) -> list[tuple[int, ...]]:
    """Returns the planes that a feature states."""
    stated = attributes.pop("planes", None)
    if not isinstance(stated, list):
        return []
    return [tuple(map(int, each.split(" "))) for each in stated if isinstance(each, str) and PLANE.fullmatch(each)]


# ---- features

class Object(NamedTuple):
    """A city object: its name, what the file has of it, its attributes, with those of its parents that it has not itself, and the
    vertices to which it refers."""

    key: str
    given: dict[str, Any]
    attributes: dict[str, Any]
    vertices: list[Point]


def objects(found: list[dict[str, Any]]) -> Iterator[Object]:
    """Yields the city objects of a model."""
    scale, translate = placing(found[0].get("transform"))
    for document in found:
        vertices, named = placed(document.get("vertices", []), scale, translate), document["CityObjects"]
        for key, each in named.items():
            above = [named[parent].get("attributes") or {} for parent in each.get("parents", []) if parent in named]
            attributes = {name: value for some in (*above, each.get("attributes") or {}) for name, value in some.items()}
            yield Object(key, each, attributes, vertices)


def things(found: list[dict[str, Any]], choice: Choice) -> list[Thing]:
    """Returns the features of a model. City objects with the same attribute for the id and the same parents are one
    feature. A city object that has children and no solid is no feature."""
    made: dict[Union[int, tuple[str, ...]], Thing] = {}
    for number, (key, each, attributes, vertices) in enumerate(objects(found), 1):
        geometries, kind = each.get("geometry") or [], each.get("type")
        if choice.kind and kind not in choice.kind or each.get("children") and not any(one.get("type") in SOLIDS for one in geometries):
            continue
        planes, label = planes_of(attributes), attributes.get(choice.id)
        name: Union[int, tuple[str, ...]] = (str(label), *map(str, each.get("parents", []))) if label is not None else number
        thing = made.setdefault(name, Thing(len(made) + 1, {"id": key, **attributes}, None, key=key, layer=attributes.get(choice.layer)))
        thing.planes += planes
        thing.solids += thing.attempt(solids_of, geometries, vertices, choice.lod) or []
    return list(made.values())


def own_origin(found: dict[str, Any]) -> Optional[tuple[Fraction, Fraction]]:
    """Returns the translation of a model as a local origin, if it moves no heights and is in integer millimetres."""
    _, (east, north, up) = placing(found.get("transform"))
    return None if up or east * 1000 % 1 or north * 1000 % 1 else (east, north)


def grid_of(found: dict[str, Any]) -> str:
    """Returns the grid that a model names, as EPSG:NUMBER or in its own words, or nothing."""
    named = (found.get("metadata") or {}).get("referenceSystem") or ""
    number = EPSG.fullmatch(str(named))
    return f"EPSG:{number[1]}" if number else str(named)


def read(text: bytes, choice: Choice) -> Model:
    """Reads a model.

    # Errors
    `Fault` if it is no CityJSON of a version that is known.
    """
    found = documents(text)
    if found[0].get("type") != "CityJSON" or str(found[0].get("version")) not in VERSIONS:
        raise Fault(f"the model is no CityJSON of the versions {', '.join(VERSIONS)}", 3, "export it in one of these")
    try:
        scale, _ = placing(found[0].get("transform"))
        return Model(things(found, choice), grid_of(found[0]), own_origin(found[0]), max(abs(number) for number in scale))
    except Unfit as unfit:
        raise Fault(f"the model cannot be read: {unfit}", 3, "correct this in the model")
    except (KeyError, TypeError, AttributeError, ValueError) as error:
        raise Fault(f"the model does not read as CityJSON: {type(error).__name__} {error}", 3, "export it again")
