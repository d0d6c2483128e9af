"""Reads the spaces of IFC 2x3, 4 and 4.3 (ISO 16739) without a library: Debian 12 has none for Python.

Solids are extruded areas and boundary representations with plane faces, also clipped ones (`ifcclip`); a curved one is refused.
Coordinates are exact but for directions that are not of length 1: those are divided by a root with 30 digits.
"""
from __future__ import annotations

from fractions import Fraction
from math import isqrt
from typing import Any, Callable, Iterator, NamedTuple, Optional

from . import Fault, ifcclip
from .model import Choice, Face, Model, Point, Ring, Shell, Solid, Thing, exact
from .rings import Unfit
from .step import Enumeration, File, Instance, Reference, Typed

SPACE = "IFCSPACE"
# The places of the values of an IfcProduct.
GUID, NAME, DESCRIPTION, TYPE, PLACEMENT, SHAPE, LONG_NAME = 0, 2, 3, 4, 5, 6, 7
SI = {"METRE": Fraction(1)}
PREFIXES = {"KILO": 3, "HECTO": 2, "DECA": 1, "DECI": -1, "CENTI": -2, "MILLI": -3, "MICRO": -6}
DIGITS: int = 10**30

Vector = tuple[Fraction, ...]
Surface = list[list[list[Vector]]]


def is_model(text: bytes) -> bool:
    """Returns whether a text may be a STEP file."""
    return text.lstrip()[:13].upper() == b"ISO-10303-21;"


# ---- vectors

def dot(u: Vector, v: Vector) -> Fraction:
    return sum((a * b for a, b in zip(u, v)), Fraction(0))


def cross(u: Vector, v: Vector) -> Vector:
    return u[1] * v[2] - u[2] * v[1], u[2] * v[0] - u[0] * v[2], u[0] * v[1] - u[1] * v[0]


def unit(vector: Vector) -> Vector:
    """Returns a vector of length 1 in a direction, exact if its length is rational.

    # Errors
    `Unfit` if it has no direction.
    """
    square = dot(vector, vector)
    if not square:
        raise Unfit("a direction has no length")
    above, below = isqrt(square.numerator), isqrt(square.denominator)
    if above**2 == square.numerator and below**2 == square.denominator:
        length = Fraction(above, below)
    else:
        length = Fraction(isqrt(int(square * DIGITS**2)), DIGITS)
    return tuple(number / length for number in vector)


class Frame(NamedTuple):
    """A place: its origin and its three axes."""

    origin: Vector
    axes: tuple[Vector, Vector, Vector]

    def point(self, at: Vector) -> Vector:
        """Returns a point of the place in the coordinates round it."""
        return tuple(begin + sum((number * axis[k] for number, axis in zip(at, self.axes)), Fraction(0)) for k, begin in enumerate(self.origin))

    def way(self, at: Vector) -> Vector:
        return tuple(a - b for a, b in zip(self.point(at), self.origin))

    def inside(self, outer: Frame) -> Frame:
        """Returns the place in the coordinates round `outer`, in which it lies."""
        x, y, z = (outer.way(axis) for axis in self.axes)
        return Frame(outer.point(self.origin), (x, y, z))


ZERO, ONE = Fraction(0), Fraction(1)
WORLD = Frame((ZERO, ZERO, ZERO), ((ONE, ZERO, ZERO), (ZERO, ONE, ZERO), (ZERO, ZERO, ONE)))


# ---- places and units

def references(value: Any) -> Iterator[int]:
    """Yields the numbers of the instances to which a value refers, also in lists and in values with a type."""
    if isinstance(value, Reference):
        yield value.number
    elif isinstance(value, Typed):
        yield from references(value.values)
    elif isinstance(value, list):
        for each in value:
            yield from references(each)


class Reader:
    """Reads instances of a file by the names of their types."""

    def __init__(self, file: File):
        self.file = file
        self.metre = self.length_unit()
        self.aggregates = {child: parent for relation in file.of("IFCRELAGGREGATES") for parent in references(file.values(relation.number)[4])
                           for child in references(file.values(relation.number)[5])}
        self.sets: dict[int, list[int]] = {}
        for values in (file.values(relation.number) for relation in file.of("IFCRELDEFINESBYPROPERTIES")):
            for one in references(values[4]):
                self.sets.setdefault(one, []).extend(references(values[5]))
        self.see_world()
        self.map, self.grid = self.conversion()

    def get(self, reference: Any) -> tuple[str, list[Any]]:
        """Returns the type and the values of an instance.

        # Errors
        `Unfit` if it is not there.
        """
        if not isinstance(reference, Reference) or reference.number not in self.file.instances:
            raise Unfit("the file refers to an instance that is not there", f"#{reference.number}" if isinstance(reference, Reference) else ascii(reference)[:60])
        return self.file.instances[reference.number].name, self.file.values(reference.number)

    def need(self, reference: Any, name: str) -> list[Any]:
        """Returns the values of an instance of a type.

        # Errors
        `Unfit` if it is of another one.
        """
        found, values = self.get(reference)
        if found != name:
            raise Unfit(f"a {found} is not read here, where a {name} is", f"#{reference.number}")
        return values

    def numbers(self, given: Any) -> Vector:
        return tuple(exact(number) for number in given)

    def vector(self, reference: Any) -> Vector:
        """Returns a point, in the unit of the file, or a direction: with three coordinates."""
        _, values = self.get(reference)
        found = self.numbers(values[0])
        return found if len(found) == 3 else (*found, ZERO)

    def frame(self, reference: Any) -> Frame:
        """Returns a place with its axes: IfcAxis2Placement3D or 2D."""
        if reference is None:
            return WORLD
        name, values = self.get(reference)
        origin = self.vector(values[0])
        flat = name.endswith("2D")
        z = unit(self.vector(values[1])) if not flat and values[1] else WORLD.axes[2]
        given = values[1 if flat else 2]
        x = self.vector(given) if given else next(axis for axis in WORLD.axes if any(cross(axis, z)))
        x = unit(tuple(a - dot(x, z) * b for a, b in zip(x, z)))
        return Frame(origin, (x, cross(z, x), z))

    def curve(self, reference: Any) -> list[Vector]:
        return curve(self, reference)

    def placement(self, reference: Any) -> Frame:
        """Returns the place of a product in the coordinates of the project."""
        found, at = WORLD, reference
        for _ in range(len(self.file.instances)):
            if at is None:
                return found
            outer, relative = self.need(at, "IFCLOCALPLACEMENT")[:2]
            found, at = found.inside(self.frame(relative)), outer
        raise Unfit("placements refer to each other in a circle")

    def length_unit(self) -> Fraction:
        """Returns how many metres the unit of length has."""
        for assignment in self.file.of("IFCUNITASSIGNMENT"):
            for reference in self.file.values(assignment.number)[0]:
                name, values = self.get(reference)
                if len(values) > 1 and values[1] == Enumeration("LENGTHUNIT"):
                    return self.metres_of(name, values)
        raise Unfit("the model names no unit of length")

    def see_world(self) -> None:
        """Checks that the coordinates of the project are those of its world: programs disagree on how others are meant.

        # Errors
        `Unfit` if a context moves or turns the world.
        """
        for context in self.file.of("IFCGEOMETRICREPRESENTATIONCONTEXT"):
            values = self.file.values(context.number)
            if self.frame(values[4]) != WORLD:
                raise Unfit("the world coordinate system of a context is not that of the project: set it to the origin, and move the site", f"#{context.number}")

    def metres_of(self, name: str, values: list[Any]) -> Fraction:
        if name == "IFCCONVERSIONBASEDUNIT":
            measure = self.need(values[3], "IFCMEASUREWITHUNIT")
            factor = measure[0].values[0] if isinstance(measure[0], Typed) else measure[0]
            return exact(factor) * self.metres_of(*self.get(measure[1]))
        if name != "IFCSIUNIT" or values[3] != Enumeration("METRE"):
            raise Unfit("the unit of length is neither metres nor made of them", name)
        return Fraction(10) ** (PREFIXES[values[2].word] if values[2] else 0)

    def conversion(self) -> tuple[Frame, str]:
        """Returns where the project lies on the map, in metres, and the name of the grid; or the project itself and no name."""
        for found in self.file.of("IFCMAPCONVERSION"):
            values = self.file.values(found.number)
            crs = self.get(values[1])[1]
            step = self.metres_of(*self.get(crs[6])) if len(crs) > 6 and crs[6] else self.metre
            origin = tuple(exact(number) * step for number in values[2:5])
            x = unit((exact(values[5]), exact(values[6]), ZERO)) if values[5] is not None and values[6] is not None else WORLD.axes[0]
            scale = exact(values[7]) if len(values) > 7 and values[7] is not None else ONE
            # Many files leave 1 where the units of project and map differ.
            if scale != 1 and scale * step != self.metre:
                raise Unfit("the model has another scale on the map than in the project", str(float(scale)))
            return Frame(origin, (x, cross(WORLD.axes[2], x), WORLD.axes[2])), str(crs[0] or "")
        return WORLD, ""


# ---- solids, in the unit of the file and the coordinates of their product

def turned(ring: list[Vector]) -> list[Vector]:
    return ring[::-1]


def area(ring: list[Vector]) -> Fraction:
    """Returns twice the area that a ring of a plan goes round, below 0 if it goes clockwise."""
    return sum((p[0] * q[1] - p[1] * q[0] for p, q in zip(ring, ring[1:] + ring[:1])), ZERO)


def line(reader: Reader, reference: Any) -> list[Vector]:
    """Returns the corners of a curve of straight lines, in turn.

    # Errors
    `Unfit` if it is another one.
    """
    name, values = reader.get(reference)
    if name == "IFCPOLYLINE":
        return [reader.vector(point) for point in values[0]]
    if name == "IFCCOMPOSITECURVE":
        parts = [reader.need(segment, "IFCCOMPOSITECURVESEGMENT")[1:3] for segment in values[0]]
        return [point for sense, part in parts for point in (line(reader, part) if sense == Enumeration("T") else turned(line(reader, part)))]
    if name != "IFCINDEXEDPOLYCURVE":
        raise Unfit("a curve that is not of straight lines", name)
    listed = [(*reader.numbers(each), ZERO)[:3] for each in reader.get(values[0])[1][0]]
    arcs = sorted({each.name for each in values[1] or []} - {"IFCLINEINDEX"})
    if arcs:
        raise Unfit("a curve that is not of straight lines", arcs[0])
    return [listed[at - 1] for at in ([at for each in values[1] for at in each.values[0]] if values[1] else range(1, len(listed) + 1))]


def curve(reader: Reader, reference: Any) -> list[Vector]:
    """Returns the corners of a closed curve of straight lines, each once."""
    found = line(reader, reference)
    without = [point for before, point in zip([None, *found], found) if point != before]
    return without[:-1] if len(without) > 1 and without[0] == without[-1] else without


def profile(reader: Reader, reference: Any) -> list[list[Vector]]:
    """Returns the rings of a profile, the outer one first.

    # Errors
    `Unfit` if it is not of straight lines.
    """
    name, values = reader.get(reference)
    if name == "IFCRECTANGLEPROFILEDEF":
        x, y = (exact(number) / 2 for number in values[3:5])
        place = reader.frame(values[2])
        return [[place.point((a * x, b * y, ZERO)) for a, b in ((-1, -1), (1, -1), (1, 1), (-1, 1))]]
    if name not in ("IFCARBITRARYCLOSEDPROFILEDEF", "IFCARBITRARYPROFILEDEFWITHVOIDS"):
        raise Unfit("a profile that is not of straight lines", name)
    return [curve(reader, values[2]), *(curve(reader, inner) for inner in (values[3] if len(values) > 3 else []))]


def extruded(reader: Reader, values: list[Any]) -> list[Surface]:
    """Returns the single surface of an extruded area."""
    rings = profile(reader, values[0])
    rings = [ring if (area(ring) > 0) == (at == 0) else turned(ring) for at, ring in enumerate(rings)]
    depth, place = exact(values[3]), reader.frame(values[1])
    step = tuple(depth * number for number in unit(reader.vector(values[2])))
    low = [[place.point(point) for point in ring] for ring in rings]
    high = [[place.point(tuple(a + b for a, b in zip(point, step))) for point in ring] for ring in rings]
    sides = [[[p, q, b, a]] for ring, top in zip(low, high) for p, q, a, b in zip(ring, ring[1:] + ring[:1], top, top[1:] + top[:1])]
    return [[[turned(ring) for ring in low], high, *sides]]


def loop(reader: Reader, reference: Any) -> tuple[bool, list[Vector]]:
    """Returns whether a bound of a face is its outer one, and its corners."""
    name, values = reader.get(reference)
    corners = [reader.vector(point) for point in reader.need(values[0], "IFCPOLYLOOP")[0]]
    return name == "IFCFACEOUTERBOUND", corners if values[1] == Enumeration("T") else turned(corners)


def bounded_face(reader: Reader, reference: Any) -> list[list[Vector]]:
    """Returns the rings of a face, the outer one first."""
    loops = [loop(reader, bound) for bound in reader.need(reference, "IFCFACE")[0]]
    return [ring for _, ring in sorted(loops, key=lambda each: not each[0])]


def shell(reader: Reader, reference: Any) -> list[list[list[Vector]]]:
    return [bounded_face(reader, face) for face in reader.need(reference, "IFCCLOSEDSHELL")[0]]


def brep(reader: Reader, values: list[Any]) -> list[Surface]:
    """Returns the surfaces of a boundary representation, the outer one first."""
    return [shell(reader, values[0]), *(shell(reader, void) for void in (values[1] if len(values) > 1 else []))]


def listed_points(reader: Reader, reference: Any) -> list[Vector]:
    return [reader.numbers(each) for each in reader.need(reference, "IFCCARTESIANPOINTLIST3D")[0]]


def polygons(reader: Reader, values: list[Any]) -> list[Surface]:
    """Returns the single surface of a set of polygons."""
    points, places = listed_points(reader, values[0]), values[3] if len(values) > 3 else None
    faces = []
    for reference in values[2]:
        given = reader.get(reference)[1]
        rings = [given[0], *(given[1] if len(given) > 1 else [])]
        faces.append([[points[(places[at - 1] if places else at) - 1] for at in ring] for ring in rings])
    return [faces]


def triangles(reader: Reader, values: list[Any]) -> list[Surface]:
    """Returns the single surface of a set of triangles."""
    points, places = listed_points(reader, values[0]), values[4] if len(values) > 4 else None
    return [[[[points[(places[at - 1] if places else at) - 1] for at in three]] for three in values[3]]]


SOLIDS: dict[str, Callable[[Reader, list[Any]], list[Surface]]] = {
    "IFCEXTRUDEDAREASOLID": extruded, "IFCFACETEDBREP": brep, "IFCFACETEDBREPWITHVOIDS": brep, "IFCPOLYGONALFACESET": polygons,
    "IFCTRIANGULATEDFACESET": triangles,
}


# ---- features

def mapping(reader: Reader, values: list[Any]) -> tuple[Frame, Any]:
    """Returns the place of a mapped item, and the representation that is there.

    # Errors
    `Unfit` if it is scaled, or its origin is moved.
    """
    origin, form = reader.need(values[0], "IFCREPRESENTATIONMAP")[:2]
    target = reader.need(values[1], "IFCCARTESIANTRANSFORMATIONOPERATOR3D")
    if reader.frame(origin) != WORLD or target[3] is not None and exact(target[3]) != 1:
        raise Unfit("a mapped item that is scaled or has an origin of its own", "IFCMAPPEDITEM")
    x, z = (unit(reader.vector(given)) if given else axis for given, axis in ((target[0], WORLD.axes[0]), (target[4], WORLD.axes[2])))
    x = unit(tuple(a - dot(x, z) * b for a, b in zip(x, z)))
    return Frame(reader.vector(target[2]), (x, cross(z, x), z)), form


def items_in(reader: Reader, form: Any, place: Frame, depth: int = 0) -> Iterator[tuple[Frame, Any]]:
    """Yields the items of a representation, each with its place; in the place of a mapped item those of its map."""
    if depth > 9:
        raise Unfit("mapped items refer to each other in a circle")
    for item in reader.need(form, "IFCSHAPEREPRESENTATION")[3]:
        name, values = reader.get(item)
        if name == "IFCMAPPEDITEM":
            inner, other = mapping(reader, values)
            yield from items_in(reader, other, inner.inside(place), depth + 1)
        else:
            yield place, item


def items_of(reader: Reader, shape: Any, place: Frame) -> Iterator[tuple[Frame, Any]]:
    """Yields the items of the body of a product, each with its place.

    # Errors
    `Unfit` if it has none.
    """
    if shape is None:
        raise Unfit("no solid", "no representation")
    forms = [(form, reader.need(form, "IFCSHAPEREPRESENTATION")) for form in reader.get(shape)[1][2]]
    bodies = [form for form, values in forms if values[1] == "Body"]
    if not bodies:
        raise Unfit("no solid", ", ".join(sorted(str(values[1]) for _, values in forms)))
    return items_in(reader, bodies[0], place)


def on_map(reader: Reader, place: Frame, at: Vector) -> Point:
    x, y, z = reader.map.point(tuple(reader.metre * number for number in place.point(at)))
    return x, y, z


def surfaces(reader: Reader, item: Any) -> Iterator[list[Surface]]:
    """Yields the surfaces of each solid that an item is.

    # Errors
    `Unfit` if it is of a kind that is not read.
    """
    def read_solid(name: str, values: list[Any]) -> list[Surface]:
        if name not in SOLIDS:
            raise Unfit("a solid of a kind that is not read", name)
        return SOLIDS[name](reader, values)

    name, values = reader.get(item)
    if name in ifcclip.RESULTS:
        yield from ifcclip.surfaces_of(reader, item, read_solid)
    else:
        yield read_solid(name, values)


def solids_of(thing: Thing, reader: Reader, values: list[Any]) -> list[Solid]:
    """Returns the solids of a product, in metres on the map.

    # Errors
    `Unfit` if one is of a kind that is not read.
    """
    try:
        return [[[[[on_map(reader, place, at) for at in ring] for ring in face] for face in surface] for surface in solid]
                for place, item in items_of(reader, values[SHAPE], reader.placement(values[PLACEMENT])) for solid in surfaces(reader, item)]
    except (TypeError, IndexError, AttributeError, ValueError, RecursionError):
        raise Unfit("its shape does not read as IFC")


def plain(value: Any) -> Any:
    """Returns a value of a property as it is noted: a text, a number or a truth."""
    if isinstance(value, Typed):
        value = value.values[0] if value.values else None
    return {"T": True, "F": False}.get(value.word, value.word) if isinstance(value, Enumeration) else value


def properties_of(reader: Reader, number: int, values: list[Any]) -> dict[str, Any]:
    """Returns the properties of a product: `id` and `Name`, which are its name; its other texts; the name of its storey; and those
    of its property sets."""
    found = {"id": values[NAME], "Name": values[NAME], "GlobalId": values[GUID], "Description": values[DESCRIPTION], "ObjectType": values[TYPE],
             "LongName": values[LONG_NAME] if len(values) > LONG_NAME else None}
    above = reader.aggregates.get(number)
    if above in reader.file.instances and reader.file.instances[above].name == "IFCBUILDINGSTOREY":
        found["storey"] = reader.file.values(above)[NAME]
    for each in reader.sets.get(number, []):
        if each in reader.file.instances and reader.file.instances[each].name == "IFCPROPERTYSET":
            for one in reader.file.values(each)[4]:
                name, given = reader.get(one)
                if name == "IFCPROPERTYSINGLEVALUE":
                    found.setdefault(str(given[0]), plain(given[2]))
    return {name: value for name, value in found.items() if isinstance(value, (str, int, float))}


def thing_of(number: int, reader: Reader, product: Instance, choice: Choice) -> Thing:
    values = reader.file.values(product.number)
    found = Thing(number, properties_of(reader, product.number, values), None, key=f"#{product.number}")
    found.layer = found.properties.get(choice.layer)
    found.solids = found.attempt(solids_of, reader, values) or []
    return found


def read(text: bytes, choice: Choice) -> Model:
    """Reads the spaces of a model, or its products of other kinds.

    # Errors
    `Fault` if it is no IFC.
    """
    kinds = [kind.upper() for kind in choice.kind] or [SPACE]
    try:
        reader = Reader(File(text))
        things = [thing_of(number, reader, product, choice) for number, product in enumerate(reader.file.of(*kinds), 1)]
    except Unfit as unfit:
        raise Fault(f"the model cannot be read: {unfit}", 3, "correct this in the model")
    except (TypeError, IndexError, AttributeError, ValueError, KeyError) as error:
        raise Fault(f"the model does not read as IFC: {type(error).__name__} {error}", 3, "export it again")
    return Model(things, reader.grid)
