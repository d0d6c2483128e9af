"""Which limit a refused line met, by hand; and that an expression is read as a tree."""
import json
import math

import pytest
from conftest import PROGRAM
from rpstore import limits
from rpstore.limits import Form, candidates
from rpstore.tree import tree
from test_words import ran


def test_a_tree():
    node = tree("minus or box 0 0 0 1 1 1 prism 0 1 3 0 0 1 0 0 1 and not name box half 1 0 0 -5")
    assert node.word == "minus" and [each.text for each in node.operands] == [
        "or box 0 0 0 1 1 1 prism 0 1 3 0 0 1 0 0 1", "and not name box half 1 0 0 -5"]
    assert [each.text for each in node.operands[1].operands] == ["not name box", "half 1 0 0 -5"]
    assert [each.word for each in node.operands[0].operands] == ["box", "prism"] and tree("all").operands == ()


@pytest.mark.parametrize("text, wanted", [
    ("or or or name a name b name c name d", "abcd"), ("or name a or name b or name c name d", "abcd"), ("or or name a name b or name c name d", "abcd"),
    ("minus minus minus name a name b name c name d", "abcd"), ("and name a name b", "ab"), ("not name a", "a"), ("not not name a", None),
    # What is taken away is not joined by the same word.
    ("minus name a minus name b name c", None), ("or name a and name b name c", None)])
def test_operands_of_one_word(text, wanted):
    found = [each.text for each in tree(text).spine]
    assert found == ([f"name {letter}" for letter in wanted] if wanted else [each.text for each in tree(text).operands])


def test_a_deep_expression():
    """As deep as the language has one."""
    node = tree("not " * 1023 + "all")
    for _ in range(1023):
        [node] = node.operands
    assert node.word == "all" and len(tree("or " * 511 + "all " * 511 + "all").spine) == 512


@pytest.mark.parametrize("word, forms, wanted", [
    ("or", [Form(1024, 6), Form(1, 6)], ["parts"]), ("and", [Form(1, 20), Form(1, 20)], ["half-spaces"]), ("and", [Form(200, 6), Form(200, 6)], ["parts"]),
    ("and", [Form(1024, 6), Form(65, 6)], ["tests"]), ("and", [Form(40, 30), Form(40, 30)], ["half-spaces", "parts"]),
    ("and", [Form(1, 12)] * 3, ["half-spaces"]), ("minus", [Form(9, 6), Form(9, 6)], ["parts", "half-spaces", "tests"])])
def test_limits_that_operands_may_meet(word, forms, wanted):
    assert candidates(word, forms) == wanted


def boxes(count, y=0):
    """Boxes in a row, none beside another."""
    return f"{'or ' * (count - 1)}{' '.join(f'box {2 * at} {y} 0 {2 * at + 1} {y + 1} 1' for at in range(count))}"


def polygon():
    """48 half-spaces round a circle, none of which can be left out."""
    sides = [(a, b) for a in range(-4, 5) for b in range(-4, 5) if math.gcd(a, b) == 1]
    return "and " * 47 + " ".join(f"half {a} {b} 0 {math.isqrt((a * a + b * b) * 10**12)}" for a, b in sides)


# 512 and 1,024 parts.
NAMES = f"let h = {boxes(512)}\nlet f = or name h name h\n"
FULL = "".join(f"register l{row} {boxes(512, 2 * row)}\n" for row in range(127)) + f"register l127 {boxes(510, 300)}\nretire l0\n"
# What stands before the line, the line, and which limit it met.
MET = [
    (NAMES, "let g = or name f all", "`or name f all` has 1,025 parts in its 2 operands, and a form has at most 1,024"),
    (NAMES, "show or or name h name h or name f none", "`or or name h name h or name f none` has 2,048 parts in its 4 operands, and a form has at most 1,024"),
    (NAMES, "empty and name f name f", "`and name f name f` is too much: it takes more than 65,536 tests; its operands have 1,024 and 1,024 parts"),
    (NAMES, "show minus all or none and name f name f", "`and name f name f` is too much: it takes more than 65,536 tests; its operands have 1,024 and 1,024 parts"),
    (NAMES, "overlap name f name f", "it takes more than 65,536 tests"), (NAMES, "pieces name f", "it takes more than 65,536 tests"),
    ("", f"show {polygon()}", f"`{polygon()[:57]}...` is too much: a part of it has more than 32 half-spaces; its operands have 48 parts"),
    (NAMES + "register a box 0 0 5 9 9 6\n", "cut a or name f name f b c", "`or name f name f` has 2,048 parts in its 2 operands, and a form has at most 1,024"),
    (NAMES + "register a name h\nregister b box 0 0 5 9 9 6\nregister c " + boxes(512, 9) + "\n", "consolidate d 3 a b c",
     "its lots have 1,025 parts together, and a lot has at most 1,024"),
    (FULL, f"register x {boxes(3, 400)}",
     "the lots before it, those that ended included, keep 65,534 parts and this keeps 3, and all lots together keep at most 65,536"),
    (FULL, "cut l127 half 0 1 0 -300 x y", None),
    (NAMES + "".join(f"let n{at} = name f\n" for at in range(62)) + "let n = name h\n", "let o = all",
     "the names before it keep 65,536 parts and this keeps 1, and all names together keep at most 65,536"),
    ("".join(f"let n{at} = none\n" for at in range(65536)), "let o = none", "65,536 names are given, and there are no more"),
]


@pytest.mark.parametrize("before, line, said", MET, ids=[line[:24] for _, line, _ in MET])
def test_which_limit(before, line, said, store):
    told = store(f"{before}{line}\n", "run", "brief")
    number = before.count("\n") + 1
    if said is None:
        assert limits.met(told, PROGRAM) == {} and not told.endswith(b"= refused limit\n")
    else:
        assert told.endswith(b"= refused limit\n") and limits.met(told, PROGRAM) == {number: said}


def test_what_explain_says(store):
    script = f"rp 2\nlet h = {'or all ' * 511}all\nlet f = or name h name h\nlet g = or name f all\n".encode()
    said = ("Line 3 (in an editor 4): the name g was not given, because a limit of the store is met: `or name f all` has 1,025 parts in its 2 operands, and a "
            "form has at most 1,024; docs/limits.md has them, with ways round each.\n")
    assert ran(["explain"], script) == (1, said.encode(), "") == ran(["explain"], store(script.decode()))
    unknown = ran(["explain", "--unchecked"], store(script.decode(), "run", "brief"))[1].decode()
    assert "a limit of the store is met, in making its parts, in the tests that it needs or in what is kept;" in unknown
    assert said[25:-1] in json.loads(ran(["explain", "--geojson", "points"], script)[1])["features"][0]["properties"]["says"]
