"""What is said of refused lines: the word, what is due there, a hint; or the lots, the place, and the lines that show it."""
import re

import drawn
import pytest
from rpstore import explain, lots
from test_words import ran

# A line of version 2 and what is said of it behind the line's number; the first are a planner's own mistakes.
MISREAD = [
    ("register E prism 0.000 3.000 5 0.000 60.000 12.000 60.000 12.000 70.000 0.000 70.000",
     "the line ends where x of corner 5 of 5 is due, from -8388.608 to 8388.608 (the count says 5 corners, and 4 are there)."),
    ("register F prism 0.000 3.000 4 0.000, 60.000, 12.000 60.000 12.000 70.000 0.000 70.000",
     'word 7, "0.000,", stands where x of corner 1 of 4 is due, from -8388.608 to 8388.608 (numbers have a space between them, and no comma).'),
    ("register G prism 0.000 3.000 4 0,000 60,000 12,000 60,000 12,000 70,000 0,000 70,000",
     'word 7, "0,000", stands where x of corner 1 of 4 is due, from -8388.608 to 8388.608 (a decimal has a point, and no comma).'),
    ("register H prism 0 3 4 0 60 12 60 12 70 0 70",
     'word 4, "0", stands where z1 of prism is due, from -16777.216 to 16777.216 (it has three digits behind the point: 0.000).'),
    ("let x box 0.000 0.000 0.000 1.000 1.000 1.000", 'word 3, "box", stands where `=` is due (`=` stands between a name and what it names).'),
    ("let y = box 0.000 0.000 0.000 1.000 1.000", "the line ends where z2 of box is due, from -16777.216 to 16777.216."),
    ("Register I all", 'word 1, "Register", stands where a command is due (`register` may be meant).'),
    ("register 5a all", 'word 2, "5a", stands where the id of a lot is due (a letter begins it, as in n5a).'),
    ("register K  all", 'word 3, "", stands where an expression is due (there is a space too many: words have exactly one space between them).'),
    ("register L all ", 'word 4, "", stands where the end of the line is due (there is a space at the end: words have exactly one space between them).'),
    (" register L all", 'word 1, "", stands where a command is due (there is a space at the beginning: words have exactly one space between them).'),
    ("register M (box 60.000 0.000 0.000 61.000 1.000 1.000)",
     'word 3, "(box", stands where an expression is due (no brackets are needed: a word stands before what it joins).'),
    ("register N ground", 'word 3, "ground", stands where an expression is due (ground is a lot: `lot ground`).'),
    ("register N field", 'word 3, "field", stands where an expression is due (field is a name: `name field`).'),
    ("register O box 412345.678 5765432.109 0.000 412346.678 5765433.109 3.000",
     'word 4, "412345.678", is out of bounds: x1 of box is from -16777.216 to 16777.216 (of map coordinates the local origin is to be taken away).'),
    ("register Wohnung_Nr_12_im_zweiten_Obergeschoss_links all",
     'word 2, "Wohnung_Nr_12_im_zweiten_Obergeschoss... (43 characters)", stands where the id of a lot is due (it has 43 bytes, and may have 32).'),
    ("register K\u00fcche all", 'word 2, "K\u00fcche", stands where the id of a lot is due '
     "(\u00fc is none of the letters a to z and A to Z, the digits, _, . and -)."),
    ("register n123/4 all", 'word 2, "n123/4", stands where the id of a lot is due '
     "(/ is none of the letters a to z and A to Z, the digits, _, . and -; `_` may stand for /)."),
    ("\tregister P all", r'word 1, "\tregister", stands where a command is due (a tab is no space: words have exactly one space between them).'),
    ("// comment", 'word 1, "//", stands where a command is due (a note begins with #).'),
    ("at 1 1 1", 'word 2, "1", stands where x of the point is due, from -2535301200456458802993406410.751 to 2535301200456458802993406410.751 '
     "(it has three digits behind the point: 1.000)."),
    ("at 1.000 1.000 1.000", "the line ends where the weight of the point, mostly 1, is due, from 1 to 37778931862957161709567."),
    ("at 1.000 1.000 1.000 1.000", 'word 5, "1.000", stands where the weight of the point, mostly 1, is due, from 1 to 37778931862957161709567 (it is 1).'),
    ("help", 'word 1, "help", stands where a command is due (one of member, let, empty, '),
    ("box 0.000", 'word 1, "box", stands where a command is due (that begins an expression, before which a command stands, as `register ID`, '),
    ("rp 2", 'word 1, "rp", stands where a command is due (the mark `rp 2` stands alone in the first line, and nowhere else).'),
    ("\ufeffrp 2", r'word 1, "\ufeffrp", stands where a command is due (a byte order mark stands before it: save the file as UTF-8 without one).'),
    ("s\0h\0o\0w\0", r'word 1, "s\x00h\x00o\x00w\x00", stands where a command is due (the file is in UTF-16: save it as UTF-8).'),
    ("show\u00a0all", r'word 1, "show\xa0all", stands where a command is due (a space of another kind stands in it: '),
    ("list\rlist", r'word 1, "list\rlist", stands where a command is due (a carriage return stands in it: a line ends with LF, or with CR LF).'),
    ("let x=all", 'word 2, "x=all", stands where a name is due (`=` is a word of its own).'),
    ("show Box 0.000", 'word 2, "Box", stands where an expression is due (`box` may be meant).'),
    ("show garden", 'word 2, "garden", stands where an expression is due (one of half, box, prism, all, none, and, or, minus, not, name, lot; '
     "a name wants `name` before it, and the id of a lot `lot`)."),
    ("show all and none", 'word 3, "and", stands where the end of the line is due (`and` stands before the two expressions that it joins).'),
    ("show all none", 'word 3, "none", stands where the end of the line is due (two expressions want `and`, `or` or `minus` before them).'),
    ("show all # a note", 'word 3, "#", stands where the end of the line is due (a note is a line of its own).'),
    ("show prism 0.000 1.000 3 0.000 0.000 1.000 0.000 1.000 1.000 0.000 1.000",
     'word 12, "0.000", stands where the end of the line is due (the prism before it has 3 corners by its count).'),
    ("subdivide a 2 b prism 0.000 1.000 5 0.000 0.000 1.000 0.000 1.000 1.000 0.000 1.000 c all",
     'word 17, "c", stands where x of corner 5 of 5 is due, from -8388.608 to 8388.608 (the count says 5 corners, and 4 are there).'),
    ("show box 0.000 0.000 0.000 1.0005 1.000 1.000",
     'word 6, "1.0005", stands where x2 of box is due, from -16777.216 to 16777.216 (it ends at the millimetre).'),
    ("show half 1 0 0 -10.000", 'word 6, "-10.000", stands where D of half is due, from -844424930131968 to 844424930131968 (it is -10).'),
    ("show half 1 0 0 -10.500", 'word 6, "-10.500", stands where D of half is due, from -844424930131968 to 844424930131968 (it is a whole number).'),
    ("show half 0 0 0 0", "the four numbers of half that end with word 6 are all 0, which is no half-space."),
    ("show prism 0.000 1.000 300 0.000", 'word 5, "300", is out of bounds: the count of corners is from 3 to 256 (docs/plans.md tells how a ring of more corners is cut).'),
    ("show" + " not" * 1024 + " all", 'word 1026, "all", is the 1,025th word of its kind, and a line may have 1,024 (a part of it that has a name by `let` counts as one).'),
    ("x" * 262145, "it has more than 262,144 bytes."),
]
GROUND = "rp 2\nregister ground box 0.000 0.000 0.000 1.000 1.000 1.000\nlet field = all\n"


@pytest.fixture(scope="module")
def misread(store):
    """What is said of each of these lines, in one script."""
    script = GROUND + "".join(f"{line}\n" for line, _ in MISREAD)
    return [*explain.explained(store(script), lots.Place())]


@pytest.mark.parametrize("place", range(len(MISREAD)))
def test_the_word_and_what_is_due(place, misread):
    assert len(misread) == len(MISREAD)
    head, wanted = f"Line {place + 3} (in an editor {place + 4}): ", MISREAD[place][1]
    assert misread[place] == head + wanted if wanted.endswith(".") else misread[place].startswith(head + wanted)


@pytest.fixture
def told(store):
    """What is said of the last line of a script."""
    def tell(script, place=lots.Place()):
        return [*explain.explained(store(script), place)][-1]

    return tell


def test_whole_numbers_of_version_1(told):
    assert told("show box 0 0 0 1.5 1 1\n") == (
        'Line 1: word 6, "1.5", stands where x2 of box is due, from -16777216 to 16777216 '
        "(a decimal wants a script that begins with the line `rp 2`; here it is 1500 units).")
    assert told(65537 * "x") == "Line 1: it has more than 65,536 bytes; in version 2 it may have more."


# A script, and what is said of its last line.
REFUSED = [
    ("empty name garden", "Line 1: the question `empty` was not answered, because no line before gives the name garden."),
    ("let garden = all\nempty name garten", "Line 2: the question `empty` was not answered, because no line before gives the name garten; garden may be meant."),
    ("register a all\nempty name a", "Line 2: the question `empty` was not answered, because no line before gives the name a; it is a lot: `lot a`."),
    ("let a = all\nempty lot a", "Line 2: the question `empty` was not answered, because no lot a was registered before this line; it is a name: `name a`."),
    ("retire a", "Line 1: a was not retired, because no lot a was registered before this line."),
    ("register a box 0 0 0 9 9 9\nretire a\nneighbours a",
     "Line 3: the question `neighbours` was not answered, because the lot a ended in line 2, when it was retired."),
    ("register a box 0 0 0 9 9 9\ncut a half 1 0 0 -4 b c\nretire a",
     "Line 3: a was not retired, because the lot a ended in line 2, when b and c came in its place."),
    ("let x = all\nlet x = none", "Line 2: the name x was not given, because the name x was given in line 1, and a name is never given again."),
    ("register a box 0 0 0 9 9 9\nregister a all", "Line 2: a was not registered, because the id a was given in line 1, and an id is never given again."),
    ("register a none", "Line 1: a was not registered, because its region has no point."),
    ("register a or name box prism 5 0 4 0 0 1 0 1 1 0 1", "Line 1: a was not registered, because no line before gives the name box."),
    ("let box = none\nregister a or name box prism 5 0 4 0 0 1 0 1 1 0 1",
     "Line 2: a was not registered, because its region has no point; the upper height of its prism, 0, is not above the lower one, 5."),
    ("register a box 16 0 31 14 5 34",
     "Line 1: a was not registered, because its region has no point; the second x of its box, 14, is not above the first, 16."),
    ("register a or box 0 9 9 9 0 9 none", "Line 1: a was not registered, because its region has no point; the upper height of its box, 9, is not above "
     "the lower one, 9; the second y of its box, 0, is not above the first, 9."),
    ("register a box 0 0 0 9 9 9\ncut a all b c", "Line 2: a was not cut, because c would have no point: all of it is in the region that cuts."),
    ("register a box 0 0 0 9 9 9\ncut a none b c", "Line 2: a was not cut, because b would have no point: no point of it is in the region that cuts."),
    ("register a box 0 0 0 9 9 9\ncut a all b b", "Line 2: a was not cut, because both new lots are called b."),
    ("subdivide a 1 b all", "Line 1: a was not subdivided, because it needs two children or more."),
    ("consolidate a 1 b", "Line 1: a was not made by consolidating, because it needs two lots or more."),
    ("register a box 0 0 0 9 9 9\nsubdivide a 2 b none b none", "Line 2: a was not subdivided, because b stands twice in the line."),
    ("register a box 0 0 0 9 9 9\nsubdivide a 2 b lot a c box 0 0 3 9 9 3",
     "Line 2: a was not subdivided, because child 2, c, has no point; the upper height of its box, 3, is not above the lower one, 3."),
    ("register a box 0 0 0 9 9 9\nlayer x\nregister b box 0 0 0 9 9 9\nconsolidate c 2 a b",
     "Line 4: c was not made by consolidating, because b is in the layer x, and a in the layer base."),
    ("register a box 0 0 0 9 9 9\nlayer x\nregister b box 0 0 0 9 9 9\naccess a b",
     "Line 4: the question `access` was not answered, because b is in the layer x, and a in the layer base."),
    ("rcc all none", "Line 1: the question `rcc` was not answered, because its second region has no point."),
    ("let a = or not box 0 0 0 1 1 1 not box 0 0 0 1 1 1\n" + "".join(f"let {b} = or name {a} name {a}\n" for a, b in zip("abcdef", "bcdefg")) + "let h = or name g name g",
     "Line 8: the name h was not given, because a limit of the store is met, in making its parts, in the tests that it needs or in what is kept; "
     "docs/limits.md has them, with ways round each."),
    # The average of the points that the report shows: for x of 9, 9, 9 and 10 that is 9.25.
    ("register a box 0 0 0 10 10 10\nregister b box 9 0 0 20 10 10",
     "Line 2: b was not registered, because it overlaps the lot a, which is there since line 1. A point of both is x 0.00925, y 0.0025, z 0.0025 m; "
     "the points that the report shows of it reach 0.001 m from west to east, 0.010 m from south to north and 0.010 m in height. "
     "These lines behind it show the place:\n    let new = box 9 0 0 20 10 10\n    let common = and name new lot a\n    pieces name common\n"
     "    show name common\n    section name common 2"),
    ("register p box 0 0 0 10 10 10\nsubdivide p 2 a box 0 0 0 4 10 10 b box 5 0 0 10 10 10",
     "Line 2: p was not subdivided, because the children leave a part of p over. A point that is left over is x 0.00425, y 0.0025, z 0.0025 m; "
     "the points that the report shows of it reach 0.001 m from west to east, 0.010 m from south to north and 0.010 m in height. "
     "These lines behind it show the place:\n    let gap = minus minus lot p box 0 0 0 4 10 10 box 5 0 0 10 10 10\n    pieces name gap\n"
     "    show name gap\n    section name gap 2"),
    ("let outside = all\nregister p box 0 0 0 10 10 10\nsubdivide p 2 a box 0 0 0 5 10 10 b box 5 0 0 11 10 10",
     "Line 3: p was not subdivided, because child 2, b, has points outside p. A point outside is x 0.01075, y 0.0025, z 0.0025 m; "
     "the points that the report shows of it reach 0.001 m from west to east, 0.010 m from south to north and 0.010 m in height. "
     "These lines behind it show the place:\n    let outside-2 = minus box 5 0 0 11 10 10 lot p\n    pieces name outside-2\n"
     "    show name outside-2\n    section name outside-2 2"),
    ("register p box 0 0 0 10 10 10\nsubdivide p 2 a box 0 0 0 6 10 10 b box 5 0 0 10 10 10",
     "Line 2: p was not subdivided, because the children a and b overlap. A point of both is x 0.00575, y 0.0025, z 0.0025 m; "
     "the points that the report shows of it reach 0.001 m from west to east, 0.010 m from south to north and 0.010 m in height. "
     "These lines behind it show the place:\n    let common = and box 0 0 0 6 10 10 box 5 0 0 10 10 10\n    pieces name common\n"
     "    show name common\n    section name common 2"),
]


@pytest.mark.parametrize("script, wanted", REFUSED)
def test_why_a_command_was_refused(script, wanted, told):
    assert told(script + "\n") == wanted


def test_a_point_on_the_map(told):
    script = "rp 2\nregister a box 0.000 0.000 0.000 10.000 10.000 10.000\nregister b box 9.000 0.000 0.000 20.000 10.000 10.000\n"
    found = told(script, lots.Place(east=412000, north=5765000))
    assert found.startswith("Line 2 (in an editor 3): b was not registered, because it overlaps the lot a, which is there since line 1 (in an editor 2). "
                            "A point of both is E 412009.250, N 5765002.500, H 2.500 m; ")
    assert found.endswith("\n    section name common 2.500")


def lines_of(sentence):
    return "".join(line.strip() + "\n" for line in sentence.split("\n")[1:])


def test_the_point_is_of_both_lots(told, store):
    """The store is asked for the point that the sentence names, to a thousandth of a unit, and by the lines that show it."""
    script = "register a prism 0 3000 4 0 0 9000 100 8000 7000 0 7100\nregister b prism 1000 4000 3 8000 3000 16000 2900 16100 9000\n"
    found = told(script)
    numbers = [round(float(word.replace("..", "")) * 10**6) for word in re.findall(r" [xyz] ([0-9.]+)", found)]
    asked = f"{lines_of(found)}member name common {' '.join(map(str, numbers))} 1000\n"
    report = store(script + asked).decode()
    assert report.endswith("= yes\n") and report.count("= refused") == 1 and report.count("\n= ring") == 1


def test_what_is_left_over_of_many_children(told, store):
    """Taken away in one line they would be too many words, so each is taken away in its own."""
    children = " ".join(f"c{x} box {x} 0 0 {x + 1} 9 9" for x in range(519))
    script = f"register p box 0 0 0 520 9 9\nsubdivide p 519 {children}\n"
    found = lines_of(told(script))
    assert found.count("let gap") == 519
    report = store(script + found, "run", "brief").decode()
    assert report.count("= refused") == 1 and "= parts 1\n= part (-1 0 0 520) (0 1 0 0) (0 -1 0 9) (0 0 1 0) (0 0 -1 9) (1 0 0 -519)\n" in report


def test_a_brief_report_has_no_point(store):
    report = store("register a box 0 0 0 10 10 10\nregister b box 9 0 0 20 10 10\n", "run", "brief")
    [told] = explain.explained(report, lots.Place())
    assert told.endswith("since line 1. (A brief report shows no point: run without `brief` for one.)")


def test_names_of_advised_lines_are_new_in_the_whole_script(store):
    script = "register a box 0 0 0 9 9 9\nregister b lot a\nregister c lot a\nlet new = none\n"
    told = [*explain.explained(store(script), lots.Place())]
    assert [re.findall("let (\\S+) =", sentence) for sentence in told] == [["new-2", "common"], ["new-3", "common-2"]]
    assert store(script + "".join(map(lines_of, told)), "run", "brief").decode().count("= refused") == 2


def explains_what_is_refused(report):
    told = [*explain.explained(report, lots.Place())]
    numbers = [int(number) for number in re.findall(rb"^> ([0-9]+)(?: .*)?\n(?:  .*\n)*= refused", report, re.M)]
    return [int(re.match("Line ([0-9]+)", sentence)[1]) for sentence in told] == numbers


def test_every_refusal_of_the_examples_is_explained(root):
    for path in root.glob("examples/*.report"):
        assert explains_what_is_refused(path.read_bytes()), path


@pytest.mark.parametrize("seed", range(100))
def test_every_refusal_of_a_drawn_script_is_explained(seed, store):
    assert explains_what_is_refused(store(drawn.script(seed)))


def test_explained_are_scripts_and_accepted_reports(store):
    script = "rp 2\nregister a box 0.000 0.000 0.000 1.000 1.000 1.000\nretire b\n"
    for given in (script.encode(), store(script), store(script, "run", "brief")):
        assert ran(["explain"], given) == (1, b"Line 2 (in an editor 3): b was not retired, because no lot b was registered before this line.\n", "")
    assert ran(["explain"], store(script).replace(b"box 0 0 0 1000", b"box 0 0 0 1001"))[0::2] == (
        1, "rpstore-gis: the report is not accepted: wrong 5, the number of its first wrong line. Nothing was written: run its script again.\n")
    assert ran(["explain"], script.replace("retire b", "retire a").encode()) == (0, b"", "")
