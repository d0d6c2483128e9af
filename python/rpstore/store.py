"""The program of the store: what it writes of a text, and what its `check` says of a report."""
from __future__ import annotations

import io
import itertools
import os
import re
import subprocess
import tempfile
from pathlib import Path
from typing import IO, NamedTuple, Optional

from . import Fault, report

UNCHECKED = "too long to be checked"


def program(given: Optional[str] = None) -> str:
    """Returns the command of the store: as `given`, or named by RPSTORE, or the one of the repository that has this file."""
    return given or os.environ.get("RPSTORE") or str(Path(__file__).resolve().parents[2] / "rpstore")


def is_built(command: str) -> bool:
    """Returns whether the store can be run without a build: that of the repository builds its program first, which takes long."""
    root = Path(command).resolve().parent
    return not (root / "crates/rp_cli/src").is_dir() or (root / "crates/rp_cli/out/rp_cli").is_file()


def quiet() -> dict[str, str]:
    """Returns the environment in which the store says nothing about a checked report."""
    return {**os.environ, "RPSTORE_NOTES": "no"}


def not_run(command: str, error: OSError) -> Fault:
    return Fault(f"the store {command} cannot be run: {error.strerror}", 5, "name it by --store or RPSTORE")


def see_status(status: int) -> None:
    """Checks that the store ended well.

    # Errors
    `Fault` if its `status` is above 1, or a signal ended it.
    """
    if status not in (0, 1):
        raise Fault(f"the store ended with status {status}", 5, "it says why above, or docs/statuses.md does")


def run(command: str, text: bytes, *words: str) -> bytes:
    """Runs the store `command` with `words` over a `text`, and returns what it writes. It says nothing about a checked report.

    # Errors
    `Fault` if the store cannot be run, or ends with a status above 1.
    """
    try:
        done = subprocess.run([command, *words], input=text, stdout=subprocess.PIPE, env=quiet())
    except OSError as error:
        raise not_run(command, error)
    see_status(done.returncode)
    return done.stdout


def shortened(file: IO[bytes]) -> tuple[bytes, int]:
    """Reads a full report: returns it, or the brief one, without proof lines, if `check` does not take it; and the bytes of the full
    report. Needs memory for 64 MiB and the brief report."""
    front = file.read(report.MOST + 1)
    if len(front) <= report.MOST:
        return front, len(front)
    # The front may end within a line.
    size, kept, front = 0, [], front + file.readline()
    for line in itertools.chain(io.BytesIO(front), file):
        size += len(line)
        if not line.startswith(b"  "):
            kept.append(line)
    return b"".join(kept), size


def full_or_brief(command: str, script: bytes) -> tuple[bytes, int]:
    """Runs the store `command` over a `script` once: returns the full report, or the brief one if `check` does not take the full
    one; and the bytes of the full report.

    # Errors
    `Fault` if the store cannot be run, or ends with a status above 1.
    """
    with tempfile.TemporaryFile() as given:
        given.write(script)
        given.seek(0)
        try:
            process = subprocess.Popen([command, "run"], stdin=given, stdout=subprocess.PIPE, env=quiet())
        except OSError as error:
            raise not_run(command, error)
        with process:
            assert process.stdout is not None
            found = shortened(process.stdout)
    see_status(process.returncode)
    return found


def is_report(text: bytes) -> bool:
    """Returns whether a `text` begins as a report does; a script begins with no `>`."""
    return re.match(rb"> [0-9]", text) is not None


def checked(text: bytes, command: str) -> str:
    """Returns what `check` says of a report, or `UNCHECKED` if that has more bytes than it takes."""
    return run(command, text, "check").decode().strip() if len(text) <= report.MOST else UNCHECKED


def accepted(said: str) -> str:
    """Returns what `check` has `said`.

    # Errors
    `Fault` if that is something against the report.
    """
    if said not in ("accepted", UNCHECKED):
        raise Fault(f"the report is not accepted: {said}, the number of its first wrong line", 1, "run its script again")
    return said


def is_brief(text: bytes) -> bool:
    """Returns whether a report has no proof line, so that `check` may need some."""
    return b"\n  " not in text


def judged(text: bytes, command: str) -> str:
    """Returns the text about a report that comes before any picture of it: `check` accepted it, or cannot judge it."""
    said = checked(text, command)
    if said.startswith("wrong"):
        for _ in report.read(io.BytesIO(text)):
            """If it is no report this says more than `check` does."""
        if is_brief(text):
            return "brief, so not checked"
    return accepted(said)


class Run(NamedTuple):
    """A report, what `check` says of it, and the bytes of the full report."""

    text: bytes
    check: str
    size: int

    @property
    def is_checked(self) -> bool:
        return self.check != UNCHECKED

    @property
    def said(self) -> str:
        return f"report {self.check}" if self.is_checked else "report not checked"

    @property
    def warnings(self) -> list[str]:
        """Returns a line for standard error if the report is not checked."""
        if self.is_checked:
            return []
        return [f"not checked: the report has {self.size:,} bytes, and check reads {report.MOST:,}: these are the answers of the store alone"]


def run_and_check(script: bytes, command: str) -> Run:
    """Runs the store `command` over a `script` and returns the report, which `check` accepted. Returns the brief report instead
    if the full one has more than 64 MiB, which `check` does not take: `Run.is_checked` says which."""
    text, size = full_or_brief(command, script)
    return Run(text, UNCHECKED if size > report.MOST else accepted(checked(text, command)), size)
