"""The solids of lots: closed, of the right volume, and as CityJSON has them."""
from fractions import Fraction

import buildings
import cityjson
import pytest
from buildings import COURT, lines
from rpstore import city

# The expression of a lot, and the shells of the solid of each of its pieces, or None where its convex parts are the solids.
MODELS = [
    ("box 0 0 0 10 10 10", [1]), ("or box 0 0 0 10 10 10 box 2 2 10 5 5 20", [1]), ("or box 0 0 0 10 10 10 box 20 0 0 30 10 10", [1, 1]),
    # A cavity inside; an island in the cavity.
    ("minus box 0 0 0 30 30 30 box 10 10 10 20 20 20", [2]),
    ("or minus box 0 0 0 30 30 30 box 10 10 10 20 20 20 box 12 12 12 15 15 15", [2, 1]),
    # Two boxes that touch in an edge, and two in a corner: those are two solids.
    ("or box 0 0 0 10 10 10 box 10 10 0 20 20 10", [1, 1]), ("or box 0 0 0 10 10 10 box 10 10 10 20 20 20", [1, 1]),
    # An arch whose arms touch in an edge: no solid, so its parts are.
    ("or or box 0 0 0 10 10 10 box 10 10 0 20 20 10 box 0 0 10 20 20 20", [None]), (COURT, [1]),
    # Two wedges whose triangles cross in the plane x = 1000: a corner is there that no part has, at (1000, 1500.5, 1500.5).
    ("or and box 0 1000 1000 1000 2000 2001 half 0 -1 1 0 and box 1000 1000 1000 2000 2000 2001 half 0 1 1 -3001", [1]),
]


@pytest.mark.parametrize("expression, shells", MODELS)
def test_solids(expression, shells, seen):
    found = seen(f"register a {expression}\n")
    model = city.model(found)
    units = {name: each for name, each in model["CityObjects"].items() if each["type"] == "BuildingUnit"}
    forms = [each["geometry"][0] for each in units.values()]
    assert list(units) == (["a"] if len(shells) == 1 else [f"a {number}" for number in range(1, len(shells) + 1)])
    assert [len(form["boundaries"]) if form["type"] == "Solid" else None for form in forms] == shells
    assert not list(cityjson.faults(model))
    validate(model)
    volume = sum(cityjson.volume(shell, model["vertices"]) for form in forms
                 for solid in ([form["boundaries"]] if form["type"] == "Solid" else form["boundaries"]) for shell in solid)
    assert volume * Fraction(1000, round(1 / model["transform"]["scale"][0])) ** 3 == found.bodies[0].volume
    assert abs(sum(each["attributes"]["volume"] for each in units.values()) - float(found.bodies[0].volume / 10**9)) < 1e-9


EXAMPLES = ["plan", "tower", "block", "floor", "escape", "tunnel", "access", "resurvey"]


@pytest.mark.parametrize("name", EXAMPLES)
def test_models_of_the_examples(name, root, seen):
    found = seen((root / f"examples/{name}.rp").read_text())
    model = city.model(found)
    assert not list(cityjson.faults(model))
    validate(model)


def validate(model):
    pytest.importorskip("jsonschema", reason="python3-jsonschema is not there").validate(model, cityjson.SCHEMA)


def test_a_tower_of_20_storeys(seen):
    found = seen(lines(*buildings.tower(20)))
    assert len(found.bodies) == 115 and found.check == "accepted" and not found.refused
    model = city.model(found)
    assert not list(cityjson.faults(model))
    validate(model)
