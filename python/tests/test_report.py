import io
import re

import pytest
from rpstore import Fault, report


def answers(text):
    return list(report.read(io.BytesIO(text.encode())))


BOX = "> 1 show box 0 0 0 10 10 10\n= parts 1\n= part (1 0 0 0) (-1 0 0 10) (0 1 0 0) (0 -1 0 10) (0 0 1 0) (0 0 -1 10)\n"


def test_a_full_answer():
    [found] = answers("> 0 rp 2\n> 3 empty box 0.000 0.000 0.000 0.000 0.010 0.010\n  out 1*(1 0 0 0) 1*(-1 0 0 0)\n= yes\n")
    assert (found.version, found.number, found.at, found.verdict, found.command.word) == (2, 3, 2, "yes", "empty")
    assert found.proof == (b"  out 1*(1 0 0 0) 1*(-1 0 0 0)",)


def test_parts_and_slices():
    assert answers(BOX)[0].verdict == (((1, 0, 0, 0), (-1, 0, 0, 10), (0, 1, 0, 0), (0, -1, 0, 10), (0, 0, 1, 0), (0, 0, -1, 10)),)
    ring = "= ring (1 0 0) (0 0 2 1) (0 1 0) (3 0 2 1) (-1 -2 3) (0 3 4 2)"
    [found] = answers(f"> 1 section name tip 2\n= sections 2\n{ring}\n= flat 1*(0 0 -1 10)\n")
    assert found.verdict == (((0, 0, 2, 1), (3, 0, 2, 1), (0, 3, 4, 2)), None)
    assert found.command.numbers == [2] and found.command.expression() == "name tip"


def test_a_lot_line():
    [found] = answers("> 1 list\n= parcels 1\n= lot c born 9 ended 12 layer rights from a b\n")
    assert found.verdict == (report.Lot("c", 9, 12, "rights", ("a", "b")),)


# A report, and the line at which it is none.
NONE = [
    ("hello\n", 1), ("> 1 list\n", 2), ("> 1 list\n= yes\n", 2), ("> 1 list\n= parcels 2\n= lot a born 1 live\n", 4),
    (BOX.replace("(1 0 0 0)", "(1 0 0)"), 3), (BOX.replace("(1 0 0 0)", "(1 0 0 00)"), 3), (BOX.replace("parts 1", "parts 2"), 4),
    (BOX + BOX, 4), (BOX + "= part\n", 4), ("> 1 walk\n= yes\n", 2), ("> 1 walk\n= refused range\n", 2), ("> 1 walk\n= refused syntax x\n", 2),
    ("> 1 list\n= refused syntax\n", 2), ("> 1 list\n= refused limit\n", 2), ("> 1 empty all\n  in (0 0 0 0)\n= no\n", 2),
    ("> 1 empty all\n  in\n= no\n", 2), ("> 1 retire a\n= refused overlaps b\n", 2), ("> 0 rp 2\n> 0 rp 2\n", 2), ("> 01 list\n= parcels 0\n", 1),
    ("> 1 at 0 0 0 1\n= parcel 7\n", 2), ("> 1 list\r\n= parcels 0\n", 2), ("> 2 audit\n= clear 0\n> 1 audit\n= clear 0\n", 3),
]


@pytest.mark.parametrize("text, line", NONE)
def test_what_is_no_report(text, line):
    with pytest.raises(Fault, match=f"^line {line} of the report: "):
        answers(text)


def test_a_report_may_be_too_long(monkeypatch):
    monkeypatch.setattr(report, "MOST", len(BOX) - 1)
    with pytest.raises(Fault, match="more than"):
        answers(BOX)


def test_all_reports_of_the_examples_and_documents(root):
    texts = [path.read_text() for path in sorted(root.glob("examples/*.report"))]
    for page in [root / "README.md", *sorted(root.glob("docs/**/*.md"))]:
        texts += re.findall(r"^```report\n(.*?)^```$", page.read_text(), re.M | re.S)
    assert len(texts) > 60
    for text in texts:
        told = answers(text)
        assert [f"= refused {' '.join((found.verdict.cause, *found.verdict.told))}" for found in told
                if isinstance(found.verdict, report.Refused)] == re.findall("^= refused .*$", text, re.M)


def test_a_brief_report_is_read_the_same(root, store):
    script = (root / "examples/plan.rp").read_text()
    full, brief = (answers(store(script, *words).decode()) for words in (("run",), ("run", "brief")))
    assert [found.verdict for found in full] == [found.verdict for found in brief] and not any(found.proof for found in brief)
