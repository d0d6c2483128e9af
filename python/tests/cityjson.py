"""What CityJSON 2.0 (cityjson.org/specs/2.0.0) asks of a model with the objects and geometries that `city` writes, written down
from the specification: Debian has no validator for it, and no copy of its schema."""
from fractions import Fraction

NUMBER, WHOLE = {"type": "number"}, {"type": "integer"}


def array(items, **bounds):
    return {"type": "array", "items": items, **bounds}


RING = array({"type": "integer", "minimum": 0}, minItems=3, uniqueItems=True)
SHELL = array(array(RING, minItems=1), minItems=4)
SOLID = array(SHELL, minItems=1)


def geometry(kind, boundaries):
    return {"type": "object", "required": ["type", "lod", "boundaries"], "additionalProperties": False,
            "properties": {"type": {"const": kind}, "lod": {"type": "string", "pattern": r"^([0-3])(\.[0-3])?$"}, "boundaries": boundaries}}


def thing(kind, required, **properties):
    return {"type": "object", "required": ["type", *required], "additionalProperties": False,
            "properties": {"type": {"const": kind}, "attributes": {"type": "object"}, **properties}}


SCHEMA = {
    "type": "object", "required": ["type", "version", "CityObjects", "vertices", "transform"], "additionalProperties": False,
    "properties": {
        "type": {"const": "CityJSON"}, "version": {"const": "2.0"},
        "transform": {"type": "object", "required": ["scale", "translate"], "additionalProperties": False,
                      "properties": {"scale": array(NUMBER, minItems=3, maxItems=3), "translate": array(NUMBER, minItems=3, maxItems=3)}},
        "metadata": {"type": "object", "additionalProperties": False,
                     "properties": {"geographicalExtent": array(NUMBER, minItems=6, maxItems=6),
                                    "referenceSystem": {"type": "string", "pattern": r"^https?://www\.opengis\.net/def/crs/[^/]+/[^/]+/[^/]+$"}}},
        "vertices": array(array(WHOLE, minItems=3, maxItems=3), uniqueItems=True),
        "CityObjects": {"type": "object", "additionalProperties": {"oneOf": [
            thing("Building", ["children"], children=array({"type": "string"})),
            thing("BuildingUnit", ["parents", "geometry"], parents=array({"type": "string"}, minItems=1, maxItems=1),
                  geometry=array({"oneOf": [geometry("Solid", SOLID), geometry("CompositeSolid", array(SOLID, minItems=1))]}, minItems=1)),
        ]}},
    },
}


def faults(model):
    """What a schema cannot say: families fit, every vertex is there and used, each face is flat, and each shell is closed,
    with each edge twice, once in each direction, the outer shell seen from outside and the inner ones from inside."""
    objects, vertices, used = model["CityObjects"], model["vertices"], set()
    for name, each in objects.items():
        for child in each.get("children", []):
            if objects.get(child, {}).get("parents") != [name]:
                yield f"{name}: its child {child}"
        for parent in each.get("parents", []):
            if name not in objects.get(parent, {}).get("children", []):
                yield f"{name}: its parent {parent}"
        for form in each.get("geometry", []):
            for solid in [form["boundaries"]] if form["type"] == "Solid" else form["boundaries"]:
                for number, shell in enumerate(solid):
                    edges = [(p, q) for face in shell for ring in face for p, q in zip(ring, ring[1:] + ring[:1])]
                    used |= {p for p, _ in edges}
                    if len(set(edges)) != len(edges) or {(q, p) for p, q in edges} != set(edges):
                        yield f"{name}: shell {number} is not closed"
                    if (volume(shell, vertices) > 0) != (number == 0):
                        yield f"{name}: shell {number} is turned inside out"
                    yield from (f"{name}: a face that is not flat" for face in shell if not is_flat(face, vertices))
    if used != set(range(len(vertices))):
        yield "a vertex that is not there, or not used"


def determinant(p, q, r):
    return p[0] * (q[1] * r[2] - q[2] * r[1]) - p[1] * (q[0] * r[2] - q[2] * r[0]) + p[2] * (q[0] * r[1] - q[1] * r[0])


def volume(shell, vertices):
    """Exactly, in units of the scale."""
    total = 0
    for face in shell:
        for ring in face:
            first, *others = (vertices[at] for at in ring)
            total += sum(determinant(first, q, r) for q, r in zip(others, others[1:]))
    return Fraction(total, 6)


def is_flat(face, vertices):
    """Whether no corner is further than two units of the scale from the plane of the face, which goes by its outer ring."""
    points = [vertices[at] for at in face[0]]
    normal = [sum((p[a] - q[a]) * (p[b] + q[b]) for p, q in zip(points, points[1:] + points[:1])) for a, b in ((1, 2), (2, 0), (0, 1))]
    size = sum(n * n for n in normal)
    return size > 0 and all(sum(n * (vertices[at][axis] - points[0][axis]) for axis, n in enumerate(normal)) ** 2 <= 4 * size
                            for ring in face for at in ring)
