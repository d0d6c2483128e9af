"""Reports that are too long to be checked: read once, in little memory, without their proof lines."""
import io
import os
import stat

import pytest
from rpstore import Fault, report, store

FULL = b"> 1 register a box 0 0 0 4 5 3\n  in (0 0 0 1)\n  box 0 0 0 4 5 3\n= ok\n> 2 empty lot a\n  in (0 0 0 1)\n= no\n"
BRIEF = b"> 1 register a box 0 0 0 4 5 3\n= ok\n> 2 empty lot a\n= no\n"


def test_a_report_is_full_or_brief(monkeypatch):
    """Wherever the bytes end that `check` reads: within a line, or after it."""
    for most in range(115):
        monkeypatch.setattr(report, "MOST", most)
        assert store.shortened(io.BytesIO(FULL)) == (FULL if most >= 105 else BRIEF, 105)


@pytest.fixture
def made(tmp_path):
    """Makes a store that writes a text and ends with a status, whatever it is asked."""
    def make(text, status=0):
        (tmp_path / "report").write_bytes(text)
        path = tmp_path / "store"
        path.write_text(f"#!/bin/sh\ncat >/dev/null\n[ \"$1\" = check ] && echo accepted || cat {tmp_path}/report\nexit {status}\n")
        path.chmod(path.stat().st_mode | stat.S_IXUSR)
        return str(path)

    return make


def test_a_short_report_is_checked(made):
    run = store.run_and_check(b"register a box 0 0 0 4 5 3\nempty lot a\n", made(FULL))
    assert run == (FULL, "accepted", 105) and run.is_checked and (run.said, run.warnings) == ("report accepted", [])


def test_a_long_report_is_not_checked_and_its_length_is_said(made, monkeypatch):
    monkeypatch.setattr(report, "MOST", 100)
    run = store.run_and_check(b"", made(FULL))
    assert (run.text, run.size, run.is_checked, run.said) == (BRIEF, 105, False, "report not checked")
    assert run.warnings == ["not checked: the report has 105 bytes, and check reads 100: these are the answers of the store alone"]


@pytest.mark.parametrize("status", [2, 6])
def test_a_store_that_fails(status, made):
    with pytest.raises(Fault, match=f"the store ended with status {status}") as fault:
        store.full_or_brief(made(b"", status), b"")
    assert fault.value.status == 5


def test_a_store_that_is_not_there(tmp_path):
    for ask in (lambda path: store.run(path, b"", "run"), lambda path: store.full_or_brief(path, b"")):
        with pytest.raises(Fault, match="cannot be run: No such file or directory") as fault:
            ask(os.fspath(tmp_path / "none"))
        assert fault.value.status == 5
