"""The words of the command line: statuses, and what is said on standard error."""
import re
import shlex
import subprocess
import sys

import pytest
from conftest import PROGRAM, ROOT


def ran(words, given=None, **more):
    """Runs the package, and gives its status, its output and what it said."""
    done = subprocess.run([sys.executable, "-B", "-m", "rpstore", *words], stderr=subprocess.PIPE, input=given,
                          env={"RPSTORE": PROGRAM, "PYTHONPATH": str(ROOT / "python")}, **{"stdout": subprocess.PIPE, **more})
    return done.returncode, done.stdout, done.stderr.decode()


SECTION = (ROOT / "examples/section.report").read_bytes()


def test_a_picture_of_a_report_and_of_a_brief_one(store):
    status, full, said = ran(["picture"], SECTION)
    assert (status, said) == (0, "rpstore-gis: drew 4 sections at 4 heights; 3 have nothing at that height; 2 without an end are left out\n")
    brief = b"".join(line for line in SECTION.splitlines(keepends=True) if not line.startswith(b"  "))
    assert brief != SECTION and ran(["picture"], brief) == (0, full, said)
    assert full == (ROOT / "examples/section.svg").read_bytes()


def test_a_picture_of_a_script(store):
    script = (ROOT / "examples/plan.rp").read_bytes()
    assert ran(["picture"], script)[:2] == (0, (ROOT / "examples/plan.svg").read_bytes())


NOTHING = ("Nothing was written: name the script that was run in its place, and its live lots are shown; or run the script again with a line `show lot X` "
           "after it for each lot X.")
AGAIN = "Nothing was written: run its script again, and take the whole report."
# The words, what they read, the status, and what is said.
REFUSED = [
    (["picture"], SECTION.replace(b"= ring", b"= circle", 1), 1, f"line 5 of the report: a line that shows a slice is due here. {AGAIN}"),
    (["picture"], b"\n".join(SECTION.splitlines()[:3]) + b"\n", 1,
     f"line 4 of the report: it ends in an answer; the line `= sections` with a number is due here. {AGAIN}"),
    (["picture"], b"> 1 list\n= parcels 0\n", 1, "the report has no line `section` that shows something. Nothing was written: add a line to the "
     "script, as `section lot X 1.500`, which cuts the lot X at 1.5 m."),
    (["measures"], b"> 1 list\n= parcels 0\n", 1,
     f"the report shows no lot, no region with an end and no section. {NOTHING}"),
    (["view"], b"> 1 list\n= parcels 0\n", 1, f"the report shows no lot and no region with an end. {NOTHING}"),
    (["lots"], b"> 1 list\n= parcels 0\n", 1, f"the report shows no lot and no region with an end. {NOTHING}"),
    (["view"], b"register a box 0 0 0 1 1 1\nretire a\n", 1, "after the script there is no lot and no region with an end. Nothing was written."),
    (["city"], b"let a = box 0 0 0 1 1 1\n", 1, "after the script there is no lot with an end. Nothing was written."),
    (["extract", "-", "a"], SECTION, 2, "extract needs a script, and this is a report: name the script that was run. Nothing was written."),
    (["view", "no such file"], b"", 3, "no such file cannot be read: No such file or directory. Nothing was written: correct the path, or ask who may read "
     "the file."),
]


@pytest.mark.parametrize("words, given, status, said", REFUSED)
def test_what_is_refused(words, given, status, said, store):
    assert ran(words, given) == (status, b"", f"rpstore-gis: {said}\n")


DROP = "Drop what is there of it, make room or name another path by -o, and run again."


def test_input_and_output_that_fail():
    words = ["picture", "--unchecked"]
    assert ran([*words, "/"])[::2] == (3, "rpstore-gis: / cannot be read: Is a directory. Nothing was written: correct the path, or ask who may read the file.\n")
    with open("/dev/full", "wb") as full:
        assert ran(words, SECTION, stdout=full)[::2] == (4, f"rpstore-gis: standard output cannot be written: No space left on device. {DROP}\n")
    assert ran([*words, "-o", "/no such folder/a.svg"], SECTION) == (4, b"", f"rpstore-gis: /no such folder/a.svg cannot be written: No such file or directory. {DROP}\n")


def test_a_report_that_is_too_long():
    proof = b"  in" + 4 * (b" (" + 900 * b"1" + b" 0 0 1)") + b"\n"
    report = b"> 1 member all 0 0 0 1\n" + proof * (67108864 // len(proof) + 1)
    assert ran(["picture", "--unchecked"], report) == (6, b"", "rpstore-gis: the report has more than 67,108,864 bytes. Nothing was written: name its script in its place.\n")


# Runs the words with reports of which `check` reads one byte less than they have.
ONE_BYTE_LESS = """
import sys
from rpstore import __main__, report, store
most, whole = report.MOST, store.full_or_brief
def shortened(command, script):
    report.MOST = most
    report.MOST = whole(command, script)[1] - 1
    return whole(command, script)
store.full_or_brief = shortened
sys.exit(__main__.main(sys.argv[1:]))
"""
LONG = b"""rp 2
register a box 0.000 0.000 0.000 4.000 5.000 3.000
register b box 4.000 0.000 0.000 9.000 5.000 3.000
section lot a 1.000
"""


@pytest.mark.parametrize("words", [["view"], ["view", "--time"], ["picture"], ["measures"], ["sections"], ["lots"], ["faces"], ["city"], ["walls"], ["meets", "all"]])
def test_scripts_with_reports_that_are_too_long_to_be_checked(words, store, tmp_path):
    """What is written is the same, but for the page, which says it; the status is 7, and a line of its own says why."""
    path = tmp_path / "long.rp"
    path.write_bytes(LONG)
    line = [words[0], str(path), *words[1:]]
    status, full, said = ran(line)
    assert status == 0 and "not checked" not in said
    done = subprocess.run([sys.executable, "-B", "-c", ONE_BYTE_LESS, *line], capture_output=True, env={"RPSTORE": PROGRAM, "PYTHONPATH": str(ROOT / "python")})
    [warning] = re.findall("^rpstore-gis: not checked: .*$", done.stderr.decode(), re.M)
    assert done.returncode == 7 and re.fullmatch(r"rpstore-gis: not checked: the report has [0-9,]+ bytes, and check reads [0-9,]+: these are the answers of "
                                                 "the store alone", warning)
    assert done.stdout == full or words[0] == "view" and abs(len(done.stdout) - len(full)) < 60


MISTYPED = [
    (["picture", "--width", "199"], "argument --width: '199' is no width: write pixels from 200 to 20000 (rpstore-gis picture --help says more)."),
    (["picture", "--width", "20001"], "argument --width: '20001' is no width: write pixels from 200 to 20000 (rpstore-gis picture --help says more)."),
    (["picture", "--width", "x"], "argument --width: 'x' is no width: write pixels from 200 to 20000 (rpstore-gis picture --help says more)."),
    (["picture", "--widht", "500"], "unknown word '--widht'; did you mean '--width'?"),
    (["picture", "a", "b"], "unknown word 'b'; rpstore-gis picture --help lists the words."),
    (["vew"], "unknown word 'vew'; did you mean 'view'?"),
    (["draw"], "unknown word 'draw'; rpstore-gis --help lists the words."),
    (["x'x"], 'unknown word "x\'x"; rpstore-gis --help lists the words.'),
    ([], "no word was given; rpstore-gis --help lists the words."),
]


@pytest.mark.parametrize("words, said", MISTYPED)
def test_words_that_are_not_known(words, said):
    assert ran(words) == (2, b"", f"rpstore-gis: {said} Nothing was read or written.\n")


def lines_of_documents():
    """The lines that begin with ./rpstore-gis in the blocks `sh` of the README and of docs/gis.md."""
    for page in ("README.md", "docs/gis.md"):
        for block in re.findall(r"^```sh\n(.*?)^```$", (ROOT / page).read_text(), re.M | re.S):
            yield from (line for line in block.splitlines() if line.startswith("./rpstore-gis "))


@pytest.mark.parametrize("line", sorted(set(lines_of_documents())))
def test_the_lines_of_the_documents(line, store, tmp_path):
    (tmp_path / "examples").symlink_to(ROOT / "examples")
    words = shlex.split(line)[1:]
    assert ran(words, cwd=tmp_path)[:2] == (0, b"") and (tmp_path / words[words.index("-o") + 1]).stat().st_size > 1000


def test_the_standard_library_is_enough_for_all_words_but_plan():
    code = "import sys, rpstore.__main__; print([name for name in ('fiona', 'pyproj', 'shapely', 'osgeo') if name in sys.modules])"
    done = subprocess.run([sys.executable, "-B", "-c", code], stdout=subprocess.PIPE, env={"PYTHONPATH": str(ROOT / "python")}, check=True)
    assert done.stdout == b"[]\n"
