"""The lots of a script as they were after every line: each is shown before the line that ends it. Lines have days, by notes or by a book.

The store runs the lines that changed something, with lines `show` between them, and the report is checked.
"""
from __future__ import annotations

import bisect
import io
import re
from dataclasses import dataclass
from typing import Optional, Sequence

from . import extract, lots, notes, report, store
from .lots import Body, Seen
from .place import Place
from .script import Script

DAY = re.compile(notes.DAY + rb"([0-9]{4}-[0-9]{2}-[0-9]{2})\b")


@dataclass(frozen=True)
class Times:
    """The lots that ever existed: ended lots first, in the order in which they ended; the days, each with the number
    of the line after which it begins; and the number of the last line."""

    seen: Seen
    days: list[tuple[int, str]]
    last: int

    def day_of(self, line: Optional[int]) -> str:
        """Returns the last day that begins before a `line`, or "" if there is none."""
        at = 0 if line is None else bisect.bisect_left([dated for dated, _ in self.days], line)
        return self.days[at - 1][1] if at else ""

    @property
    def moments(self) -> list[tuple[int, str]]:
        """Returns the lines at which lots was born or ended, and the last line, each with its day, or ""."""
        lines = {line for body in self.seen.bodies for line in (body.born, body.ended) if line is not None} | {self.last}
        return [(line, self.day_of(line)) for line in sorted(lines)]


def changes(book: extract.Book) -> bytes:
    """Returns a script of the lines of a book that changed something, in which each lot is shown before the line that ends it, or at
    the end."""
    made = [b"rp 2"] * (book.version == 2)
    for parsed in book.commands.values():
        made += [f"show lot {lot}".encode() for lot in extract.ended_by(parsed)]
        made.append(" ".join(parsed.words).encode())
    made += [f"show lot {lot}".encode() for lot, known in book.register.lots.items() if known.ended is None]
    return b"\n".join([*made, b""])


def body_of(answer: report.Answer, book: extract.Book) -> Optional[Body]:
    """Returns the lot that a line `show lot X` shows, with the lines of the book at which it was born and ended; None if it is refused."""
    label = lots.lot_of(answer.parsed) or ""
    known = book.register.lots[label]
    return lots.lot_body(report.Lot(label, known.born, known.ended, known.layer, known.origins), lots.cells_of(answer))


def times(script: Script, place: Place, program: str, added: Sequence[tuple[int, str]] = ()) -> Times:
    """Asks the store `program` for all lots that ever existed in a `script`. Its days are those of its notes; if no
    note has a day, those on which the lines were `added` to a book."""
    book = extract.asked(extract.lines_of(script.text), [], program)
    run = store.run_and_check(changes(book), program)
    shown = [body_of(answer, book) for answer in report.read(io.BytesIO(run.text)) if answer.command and answer.command.word == "show"]
    bodies = [body for body in shown if body]
    days = [(number, found[1].decode()) for number, line in enumerate(script.lines, 1) for found in [DAY.match(line)] if found]
    refused = len(book.refused) + len(shown) - len(bodies)
    return Times(Seen(bodies, [], place, refused, run.check, book.version, run.warnings, is_script=True), days or list(added), len(script.lines))
