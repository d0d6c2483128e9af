"""The limits of the store (docs/limits.md), and which of them a refused line met.

A refusal says `limit` and not which. So a copy of the script has questions `show` after each such line, for its expressions, then for
the operands of the first one that is refused, and so on; and for each lot and each name, whose parts the store counts.
"""
from __future__ import annotations

import io
from dataclasses import dataclass, field
from typing import Iterator, NamedTuple, Optional, Sequence

from . import command, report, store
from .tree import Node, tree

# Of a form; of a part; of a line; of all names, and of all lots together.
MOST_PARTS, MOST_HALVES, MOST_TESTS, MOST_NAMES, MOST_KEPT = 1024, 32, 65536, 65536, 65536
MOST_SCRIPT = 16777216
# An expression whose operands are expressions of other kinds is asked so many times.
MOST_ROUNDS = 12
# The commands that make lots, and those that count tests and nothing else.
OF_LOTS = {"register", "cut", "subdivide", "consolidate"}
OF_TESTS = {"overlap", "contact", "pieces", "neighbours", "access", "audit", "register", "subdivide"}
TESTS = f"it takes more than {MOST_TESTS:,} tests"
WHAT = {"parts": f"it has more than {MOST_PARTS:,} parts", "half-spaces": f"a part of it has more than {MOST_HALVES} half-spaces", "tests": TESTS}


class Form(NamedTuple):
    """How many parts an expression has, and how many half-spaces the part with the most of them."""

    parts: int
    halves: int


def form_of(verdict: tuple[Sequence[object], ...]) -> Form:
    """Returns the form of a region by the verdict of `show`."""
    return Form(len(verdict), max(map(len, verdict), default=0))


# ---- questions and answers

@dataclass
class Line:
    """A line that was refused with `limit`: its answer, the questions about it, of each its form or None if that is refused, too; the
    parts of all lots and of all names before it, and how many names there are."""

    answer: report.Answer
    forms: dict[str, Optional[Form]] = field(default_factory=dict)
    lots: int = 0
    named: int = 0
    names: int = 0

    @property
    def command(self) -> command.Command:
        return self.answer.parsed

    @property
    def expressions(self) -> list[str]:
        """Returns the expressions of which the line makes forms, in order."""
        parsed = self.command
        found = [parsed.expression(place) for place in range(len(parsed.expressions))]
        if parsed.word == "cut":
            lot = f"lot {parsed.names[0]}"
            return [*found, f"and {lot} {found[0]}", f"minus {lot} {found[0]}"]
        return [f"lot {lot}" for lot in parsed.names[1:]] if parsed.word == "consolidate" else found


def made_by(answer: report.Answer) -> list[str]:
    """Returns the name or the lots that an accepted line makes, as expressions."""
    parsed = answer.command
    if answer.verdict != "ok" or parsed is None:
        return []
    if parsed.word == "let":
        return [f"name {parsed.names[0]}"]
    made = parsed.names[1:] if parsed.word in ("cut", "subdivide") else parsed.names[:1] if parsed.word in OF_LOTS else []
    return [f"lot {lot}" for lot in made]


def copy(answers: Sequence[report.Answer], questions: dict[int, list[str]]) -> bytes:
    """Returns the lines of `answers` that changed something, as a script, with lines `show` for some expressions after some lines, by
    their numbers."""
    made = ["rp 2"] * (bool(answers) and answers[0].version == 2)
    for answer in answers:
        made += [answer.text] if answer.verdict == "ok" and answer.text else []
        made += [f"show {expression}" for expression in questions.get(answer.number, [])]
    return "".join(f"{line}\n" for line in made).encode()


def asked(answers: Sequence[report.Answer], questions: dict[int, list[str]], program: str) -> dict[int, list[Optional[Form]]]:
    """Runs the script of `answers` in the store `program`, then asks for the forms of the expressions; None if one is refused."""
    told = report.read(io.BytesIO(store.run(program, copy(answers, questions), "run", "brief")))
    found: dict[int, list[Optional[Form]]] = {}
    for answer in answers:
        if answer.verdict == "ok":
            next(told)
        verdicts = [next(told).verdict for _ in questions.get(answer.number, [])]
        found[answer.number] = [None if isinstance(verdict, report.Refused) else form_of(verdict) for verdict in verdicts]
    return found


# ---- which limit

def candidates(word: str, forms: Sequence[Form]) -> list[str]:
    """Returns the limits that operands with these `forms` may reach if a `word` joins them."""
    product = 1
    for form in forms:
        product *= form.parts
    if word == "or":
        return ["parts"]
    if word == "and":
        found = ["half-spaces"] if sum(form.halves for form in forms) > MOST_HALVES else []
        if len(forms) == 2 and product > MOST_TESTS:
            return ["tests"]
        return found + ["parts"] * (product > MOST_PARTS) + ["tests"] * (product > MOST_TESTS)
    return ["parts", "half-spaces", "tests"]


def of_form(node: Node, forms: Sequence[Form]) -> str:
    """Returns the limit that an expression reaches, whose operands have these `forms`."""
    if node.word == "or":
        total = sum(form.parts for form in forms)
        return f"`{node.short}` has {total:,} parts in its {len(forms):,} operands, and a form has at most {MOST_PARTS:,}"
    why = ", or ".join(WHAT[limit] for limit in candidates(node.word, forms))
    if not forms:
        return f"`{node.short}` is too much: {why}"
    counts = " and ".join(f"{form.parts:,}" for form in forms) if len(forms) < 4 else f"{sum(form.parts for form in forms):,}"
    return f"`{node.short}` is too much: {why}; its operands have {counts} parts"


def of_kept(line: Line) -> str:
    """Returns the limit that a command meets whose forms are all made."""
    # Of a `cut` the first expression is the one that cuts.
    word, made = line.command.word, [line.forms[expression] for expression in line.expressions[line.command.word == "cut":]]
    new = sum(form.parts for form in made if form)
    if word == "let" and line.names >= MOST_NAMES:
        return f"{MOST_NAMES:,} names are given, and there are no more"
    if word == "let":
        return f"the names before it keep {line.named:,} parts and this keeps {new:,}, and all names together keep at most {MOST_KEPT:,}"
    if word == "consolidate" and new > MOST_PARTS:
        return f"its lots have {new:,} parts together, and a lot has at most {MOST_PARTS:,}"
    if word in OF_LOTS and line.lots + new > MOST_KEPT:
        return f"the lots before it, those that ended included, keep {line.lots:,} parts and this keeps {new:,}, and all lots together keep at most {MOST_KEPT:,}"
    return TESTS if word in OF_TESTS else "what the line compares is too much: " + ", or ".join(WHAT.values())


def next_questions(line: Line) -> tuple[list[str], str]:
    """Returns the expressions to be asked next, or none and the limit that the line met."""
    unknown = [expression for expression in line.expressions if expression not in line.forms]
    if unknown:
        return unknown, ""
    refused = next((expression for expression in line.expressions if line.forms[expression] is None), None)
    if refused is None:
        return [], of_kept(line)
    node = tree(refused)
    while True:
        operands = node.spine
        texts = [operand.text for operand in operands]
        unknown = list(dict.fromkeys(text for text in texts if text not in line.forms))
        if unknown:
            return unknown, ""
        deeper = next((operand for operand in operands if line.forms[operand.text] is None), None)
        if deeper is None:
            return [], of_form(node, [form for form in (line.forms[text] for text in texts) if form])
        node = deeper


def kept(answers: Sequence[report.Answer], forms: dict[int, list[Optional[Form]]], lines: dict[int, Line]) -> None:
    """Counts the parts of lots and names before each of `lines`, by the forms of what each line makes."""
    lots = named = names = 0
    for answer in answers:
        if answer.number in lines:
            lines[answer.number].lots, lines[answer.number].named, lines[answer.number].names = lots, named, names
            continue
        parts, is_let = sum(form.parts for form in forms[answer.number] if form), answer.command is not None and answer.command.word == "let"
        lots, named, names = lots + parts * (not is_let), named + parts * is_let, names + (is_let and answer.verdict == "ok")


def rounds(answers: Sequence[report.Answer], lines: dict[int, Line], program: str) -> Iterator[tuple[int, str]]:
    """Yields the numbers of `lines` that were refused with `limit`, each with the limit that it met, as far as that is known."""
    made = {answer.number: made_by(answer) for answer in answers} if any(line.command.word in OF_LOTS | {"let"} for line in lines.values()) else {}
    for _ in range(MOST_ROUNDS):
        asks = {number: next_questions(line) for number, line in lines.items()}
        yield from ((number, why) for number, (_, why) in asks.items() if why)
        lines = {number: line for number, line in lines.items() if asks[number][0]}
        questions = {**made, **{number: asks[number][0] for number in lines}}
        if not lines or len(copy(answers, questions)) > MOST_SCRIPT:
            return
        found = asked(answers, questions, program)
        if made:
            kept(answers, found, lines)
        made = {}
        for number, line in lines.items():
            line.forms.update(zip(questions[number], found[number]))


def met(text: bytes, program: str) -> dict[int, str]:
    """Asks the store `program` which limit each line met that a report refuses with `limit`; returns that by their numbers, as far as it
    is known."""
    if b"\n= refused limit\n" not in text:
        return {}
    answers = list(report.read(io.BytesIO(text)))
    lines = {answer.number: Line(answer) for answer in answers if isinstance(answer.verdict, report.Refused) and answer.verdict.cause == "limit"}
    return dict(rounds(answers, lines, program))
