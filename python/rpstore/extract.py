"""Of a long script the lines on which some of its lots rest, each under its own number, and its report."""
import io
import itertools
from dataclasses import dataclass, field, replace
from typing import Any, Collection, Iterable, Iterator, Optional

from . import Fault, command, lots, report, store
from .notes import is_head, notes_on

# Notes behind an extract: there they give no line another number.
SAYS = """# This is an extract for {ids}: of the {lines:,} lines of a script {kept:,} stand here, each under its own number.
# Its report shows by which lines and out of which lots they came about, {shown}.
# It does not show what the lines do that are empty here. That no other lot has a point of them{unseen} is shown by the
# report of the whole script alone.
"""


@dataclass
class Book:
    """A script and what came of it: its lines; its version; the commands that changed something, by the numbers of their lines;
    for each of these the number of the `layer` line that held then, or 0; the names and lots; what was refused; and the
    verdicts on the questions after it."""

    lines: list[bytes]
    version: int = 1
    commands: dict[int, command.Command] = field(default_factory=dict)
    layers: dict[int, int] = field(default_factory=dict)
    register: lots.Register = field(default_factory=lots.Register)
    refused: list[report.Refused] = field(default_factory=list)
    answers: list[tuple[bytes, Any]] = field(default_factory=list)

    @property
    def questions(self) -> list[bytes]:
        return [question for question, _ in self.answers]


def lines_of(text: bytes) -> list[bytes]:
    return text.split(b"\n")[: -1 if text.endswith(b"\n") else None]


def asked(lines: list[bytes], questions: Iterable[bytes], program: str) -> Book:
    """Asks the store `program` questions after the lines of a script."""
    return book_of(lines, store.run(program, b"\n".join([*lines, *questions, b""]), "run", "brief"))


def book_of(lines: list[bytes], told: bytes) -> Book:
    """Returns the book of the lines of a script by a report `told` of these and of questions after them."""
    book, layer = Book(lines, 2 if told.startswith(b"> 0 rp 2\n") else 1), 0
    last = len(lines) - (book.version == 2)
    for answer in report.read(io.BytesIO(told)):
        if answer.number > last:
            if answer.text is not None:
                book.answers.append((answer.text.encode(), answer.verdict))
        elif isinstance(answer.verdict, report.Refused):
            book.refused.append(answer.verdict)
        elif answer.verdict == "ok":
            book.commands[answer.number], book.layers[answer.number] = answer.parsed, layer
            book.register.take(answer)
            layer = answer.number if answer.parsed.word == "layer" else layer
    return book


# ---- which lines

def ended_by(parsed: command.Command) -> list[str]:
    """Returns the lots that a command ends."""
    if parsed.word in ("cut", "subdivide", "retire"):
        return parsed.names[:1]
    return parsed.names[1:] if parsed.word == "consolidate" else []


def before(book: Book, number: int) -> Iterator[int]:
    """Yields the lines on which a line depends: lines that give its names, make its lots, or set its layer."""
    parsed, register = book.commands[number], book.register
    for kind, label in parsed.named:
        yield register.names[label] if kind == "name" else register.lots[label].born
    for lot in ended_by(parsed):
        yield register.lots[lot].born
    if parsed.word == "register" and book.layers[number]:
        yield book.layers[number]


def needed(book: Book, ids: Iterable[str], numbers: Iterable[int] = ()) -> set[int]:
    """Returns the lines by which lots were born and ended, the lines `numbers`, and all lines on which these depend."""
    found: set[int] = set()
    wanted = [*numbers, *(number for lot in ids for number in (book.register.lots[lot].born, book.register.lots[lot].ended) if number)]
    while wanted:
        number = wanted.pop()
        if number not in found:
            found.add(number)
            wanted += before(book, number)
    return found


def emptied(book: Book, numbers: Iterable[int]) -> list[bytes]:
    """Returns the script with all lines empty except some, the notes on them and their deeds, and the mark and the notes at its head."""
    lines = book.lines
    mark = range(book.version - 1)
    head = itertools.takewhile(lambda at: is_head(lines[at]), range(len(mark), len(lines)))
    places = {number - (book.version == 1) for number in numbers}
    kept = {*mark, *head, *places, *notes_on(lines, places)}
    return [line if place in kept else b"" for place, line in enumerate(lines)]


def in_the_way(part: Book, whole: Book) -> set[str]:
    """Returns the lots that ended in the whole script and not in a part of it, and that overlap a later lot there or are neighbours."""
    refused = [*part.refused, *(verdict for _, verdict in part.answers if isinstance(verdict, report.Refused))]
    found = {each.told[0] for each in refused if each.cause == "overlaps"}
    for question, verdict in part.answers:
        if question.startswith(b"neighbours ") and isinstance(verdict, tuple):
            found.update(verdict)
    return {lot for lot in found if lot in whole.register.lots and whole.register.lots[lot].ended is not None}


class Unlike(Fault):
    """Says that some lines of a script alone are not answered as in the whole script."""


def are_answered(part: Book, whole: Book) -> bool:
    """Returns whether no line of a part is refused, and each question that the whole script answers has the same verdict. A limit that
    the whole script meets may not be met by the part."""
    return not part.refused and all(answer == wanted for answer, wanted in zip(part.answers, whole.answers)
                                    if not isinstance(wanted[1], report.Refused))


def fewest(whole: Book, ids: Iterable[str], program: str, numbers: Iterable[int] = ()) -> set[int]:
    """Returns the lines by which lots are what they are, and by which the questions after the script are answered as they are; with
    the lines `numbers` and all on which these rest.

    # Errors
    `Unlike` if these lines alone are not answered as in the whole script.
    """
    found = needed(whole, ids, numbers)
    while True:
        part = asked(emptied(whole, found), whole.questions, program)
        more = needed(whole, in_the_way(part, whole)) - found
        if not more:
            break
        found |= more
    if not are_answered(part, whole):
        raise Unlike("the lines of these lots alone are not answered as in the whole script")
    return found


# ---- a report that is short enough to be checked

@dataclass(frozen=True)
class Excerpt:
    """The report of the lines on which some live lots rest, with questions after them, which `check` accepted; the ids of the live
    lots that it has, and how many lots are live in the whole script."""

    run: store.Run
    live: Collection[str]
    of: int

    @property
    def said(self) -> str:
        return f"report accepted, of an extract with {len(self.live):,} of {self.of:,} live lots"


def named_lines(whole: Book, questions: Iterable[bytes]) -> set[int]:
    """Returns the lines that give the names, and those that make the lots, that the expressions of questions name."""
    register, found = whole.register, set()
    for question in questions:
        for kind, label in command.read(question.decode(), whole.version).named:
            known = register.names.get(label) if kind == "name" else label in register.lots and register.lots[label].born
            found.update([known] if known else [])
    return found


def live_lots(book: Book) -> dict[str, int]:
    """Returns the live lots of a book, each with the line at which it came."""
    return {lot: known.born for lot, known in book.register.lots.items() if known.ended is None}


def excerpt(lines: list[bytes], told: bytes, ids: Iterable[str], program: str) -> Optional[Excerpt]:
    """Asks the questions of a report `told`, which come after the `lines` of a script, after those lines alone on which the lots `ids`
    and the names in the questions rest. Returns None if this report is too long to be checked, too, or the answers differ."""
    whole = book_of(lines, told)
    try:
        numbers = fewest(whole, ids, program, named_lines(whole, whole.questions))
    except Unlike:
        return None
    run = store.run_and_check(b"\n".join([*emptied(whole, numbers), *whole.questions, b""]), program)
    if not run.is_checked:
        return None
    live = live_lots(whole)
    return Excerpt(run, {lot for lot, born in live.items() if born in numbers}, len(live))


# ---- the extract

@dataclass
class Extract:
    """A script and its report, and of how many lines it has how many."""

    script: bytes
    report: bytes
    kept: int
    lines: int


def extract(text: bytes, ids: list[str], program: str, with_neighbours: bool = False) -> Extract:
    """Returns the extract of a script for some of its lots, with their neighbours if that is wished. `check` accepted its report."""
    words = ["history", "show lot"] + ["neighbours"] * with_neighbours
    whole = asked(lines_of(text), [f"{word} {lot}".encode() for lot in ids for word in words], program)
    # Of a lot that ended the history alone is known.
    whole = replace(whole, answers=[(question, verdict) for question, verdict in whole.answers if not isinstance(verdict, report.Refused)])
    missing = [lot for lot in ids if lot not in whole.register.lots]
    if missing:
        raise Fault(f"the script registers no lot {', '.join(missing)}", 1, "`list` in the script shows the live lots")
    beside = [lot for question, answer in whole.answers if question.startswith(b"neighbours ") for lot in answer]
    numbers = fewest(whole, [*ids, *beside], program)
    says = SAYS.format(ids=", ".join(ids), lines=len(whole.lines), kept=len(numbers), unseen="" if with_neighbours else " or touches them",
                       shown="what each of them holds, and which lots touch them" if with_neighbours else "and what each of them holds")
    script = b"\n".join([*emptied(whole, numbers), *whole.questions, says.encode()])
    run = store.run_and_check(script, program)
    if not run.is_checked:
        raise Fault(f"the report of the extract has {run.size:,} bytes, and check reads {report.MOST:,}", 6, "name fewer lots")
    return Extract(script, run.text, len(numbers), len(whole.lines))
